"""Sweeps: many variants of a model, verified on this machine or on a cluster.

A variant is a list of edits. Each is made and verified by the program, in a process of its own, so what is found of it
depends on nothing but the model and the edits: not on the order, and not on how many workers there are.
"""

from __future__ import annotations

from collections.abc import Iterable, Iterator, Mapping, Sequence
from concurrent.futures import ProcessPoolExecutor, as_completed
from concurrent.futures.process import BrokenProcessPool
from itertools import product
from typing import TYPE_CHECKING, Any

from .answer import frame_of
from .commands.apply import apply
from .commands.margin import margin
from .commands.tighten import tighten
from .commands.verify import RequirementVerdict, Verification, room_of, verify
from .errors import ChainlatError, ProgramFailed, ProgramMissing, Refused
from .program import Program, the
from .sources import Source, content_of

if TYPE_CHECKING:
    import pandas

#: What may be asked of each variant besides `verify`.
BESIDES = ("margin", "tighten")
TITLE = "chainlat edits 2"
#: How many variants one task of a pool or of a cluster has.
AT_ONCE = 16
#: How many times a variant is begun again, as its worker died.
TRIES = 5

Changes = Mapping[str, Iterable[Any]] | Iterable[str]
Row = dict[str, Any]


def variants_of(changes: Changes) -> list[tuple[str, Row]]:
    """The variants that changes describe: of each its edits, a line each, and the values that it has by name.

    - A mapping is a product: each key is an edit with a place `{}` for a value, as `offset ms20 {}`, and its values are
      tried in turn; the last key changes fastest. A value that is a tuple fills as many places.
    - Anything else is a list of variants, each a text of edits, a line each or with `;` between them.
    """
    if isinstance(changes, Mapping):
        keys = list(changes)
        return [
            (
                "\n".join(_filled(key, value) for key, value in zip(keys, values, strict=True)),
                {key.replace("{}", "").strip(): _shown(value) for key, value in zip(keys, values, strict=True)},
            )
            for values in product(*(list(changes[key]) for key in keys))
        ]
    return [("\n".join(part.strip() for part in text.replace(";", "\n").split("\n")), {}) for text in changes]


def _filled(key: str, value: Any) -> str:
    values = value if isinstance(value, tuple) else (value,)
    if key.count("{}") != len(values):
        raise ValueError(f"{key!r} has {key.count('{}')} places for {len(values)} values")
    return key.format(*values)


def _shown(value: Any) -> Any:
    return " ".join(map(str, value)) if isinstance(value, tuple) else value


def asked(content: bytes, edits: str, besides: Sequence[str], program: Program) -> Row:
    """What is found of one variant: a row. A variant that is refused is a row with its refusal."""
    try:
        model = apply(content, f"{TITLE}\n{edits}\n", program=program)
        row = _verified(verify(model, program=program))
        if "margin" in besides:
            row["margin"] = margin(model, program=program).all.percent
        if "tighten" in besides:
            for chain in tighten(model, program=program).chains:
                row |= {f"{chain.name} {kind}": getattr(chain, kind) for kind in ("reaction", "age", "reduced", "delay")}
        return row
    except Refused as refused:
        return {"refused": refused.line or str(refused)}
    except ProgramFailed as failed:
        return {"refused": str(failed)}


def _verified(found: Verification) -> Row:
    """The columns of a verification: how much is met, the least room, and the value of each requirement."""
    rooms = [(100 * room // it.limit if it.limit else 0) for it in found.verdicts if (room := room_of(it)) is not None]
    row: Row = {
        "unmet": found.sum.broken + found.sum.unshown,
        "met": found.sum.met,
        "broken": found.sum.broken,
        "unshown": found.sum.unshown,
        "least room percent": min(rooms, default=None),
        "all rooms percent": sum(rooms),
    }
    for it in found.verdicts:
        if isinstance(it, RequirementVerdict):
            row[it.name] = it.value
    return row


def _several(content: bytes, edits: Sequence[str], besides: Sequence[str], program: Program) -> list[Row]:
    """What is found of several variants."""
    return [asked(content, one, besides, program) for one in edits]


def _parts(edits: Sequence[str]) -> Iterator[tuple[int, list[str]]]:
    for begins in range(0, len(edits), AT_ONCE):
        yield begins, list(edits[begins:begins + AT_ONCE])


def sweep(
    model: Source,
    changes: Changes,
    *,
    client: Any = None,
    workers: int | None = None,
    besides: Sequence[str] = (),
    program: Program | None = None,
    progress: bool = True,
) -> pandas.DataFrame:
    """Verifies each variant of a model, and returns a frame with a row for each, the best first.

    The best has the least unmet, then the most room: the least room in percent of a limit, and then the sum of all.
    Variants that are alike stand in the order of `changes`. Refused ones stand last, with their refusal as `refused`.

    - `changes`: a product, as `{"offset ms20 {}": range(0, 20000, 1000)}`, or a list of edits (see `variants_of`)
    - `client`: a client of `dask.distributed`; without one, `workers` processes of this machine (None: one each core)
    - `besides`: what else is asked: `margin`, `tighten`
    - `progress`: whether a bar shows how far it is

    Columns: `variant` (its number, from 0), `edits`, a column for each change of a product, `unmet`, `met`, `broken`,
    `unshown`, `least room percent`, `all rooms percent`, the bound of each requirement in ticks by its name, and `refused`.
    """
    for it in besides:
        if it not in BESIDES:
            raise ValueError(f"{it!r} can't be asked of a variant: wanted one of {', '.join(BESIDES)}")
    variants = variants_of(changes)
    content, edits = content_of(model), [it[0] for it in variants]
    asking = the(program)
    if client is None:
        found = _on_this_machine(content, edits, besides, asking, workers, progress)
    else:
        found = _on_a_cluster(content, edits, besides, asking, client, progress)
    rows: list[Row] = []
    for number, (text, values) in enumerate(variants):
        rows.append({"variant": number, "edits": text.replace("\n", "; "), **values, **found[number]})
    return _sorted(rows)


def _sorted(rows: list[Row]) -> pandas.DataFrame:
    def rank(row: Row) -> tuple[int, int, float, int, int]:
        least = row.get("least room percent")
        return (
            "refused" in row,
            row.get("unmet", 0),
            float("inf") if least is None else -least,
            -row.get("all rooms percent", 0),
            row["variant"],
        )

    columns: dict[str, None] = {}
    for row in rows:
        columns |= dict.fromkeys(key for key in row if key != "refused")
    frame = frame_of(sorted(rows, key=rank))
    return frame.reindex(columns=[*columns, "refused"])


def _on_this_machine(
    content: bytes, edits: list[str], besides: Sequence[str], program: Program, workers: int | None, progress: bool
) -> dict[int, Row]:
    """Asks by processes of this machine. Where one dies, what it hadn't answered is asked again."""
    found: dict[int, Row] = {}
    left = dict(_parts(edits))
    with _bar(len(edits), progress) as step:
        for _ in range(TRIES):
            if not left:
                break
            with ProcessPoolExecutor(workers) as pool:
                going = {
                    pool.submit(_several, content, part, besides, program): begins for begins, part in left.items()
                }
                for future in as_completed(going):
                    begins = going[future]
                    try:
                        rows = future.result()
                    except BrokenProcessPool:
                        continue
                    found |= dict(enumerate(rows, begins))
                    del left[begins]
                    step(len(rows))
    if left:
        raise ChainlatError(f"{len(left)} parts of the sweep had no answer: their processes died {TRIES} times")
    return found


def _on_a_cluster(
    content: bytes, edits: list[str], besides: Sequence[str], program: Program, client: Any, progress: bool
) -> dict[int, Row]:
    """Asks by the workers of a cluster, whose scheduler asks again what a worker that died hadn't answered."""
    from distributed import as_completed as as_done

    [given] = client.scatter([content], broadcast=True, hash=False)
    going = {
        client.submit(_several, given, part, besides, program, pure=False, retries=TRIES): begins
        for begins, part in _parts(edits)
    }
    found: dict[int, Row] = {}
    with _bar(len(edits), progress) as step:
        for future in as_done(going):  # type: ignore[no-untyped-call]
            begins = going[future]
            try:
                rows = future.result()
            except ProgramMissing as error:
                raise ProgramMissing(f"on a worker {error}") from None
            found |= dict(enumerate(rows, begins))
            step(len(rows))
    return found


class _bar:
    """A progress bar on the standard error, or none."""

    def __init__(self, total: int, shown: bool) -> None:
        self.total, self.shown = total, shown

    def __enter__(self) -> Any:
        from rich.console import Console
        from rich.progress import BarColumn, MofNCompleteColumn, Progress, TimeRemainingColumn

        self.bar = Progress(
            "variants", BarColumn(), MofNCompleteColumn(), TimeRemainingColumn(),
            console=Console(stderr=True), disable=not self.shown,
        )
        task = self.bar.add_task("variants", total=self.total)
        self.bar.start()
        return lambda count: self.bar.advance(task, count)

    def __exit__(self, *_: object) -> None:
        self.bar.stop()
