"""`replay MODEL TRACE`: what is measured in a legal run, beside the plain bounds."""

from __future__ import annotations

from collections.abc import Iterator
from dataclasses import dataclass
from typing import ClassVar, Self

from ..answer import Answer
from ..forms import Job
from ..lines import Line, Lines
from ..program import Program, the
from ..sources import Source, file_of


@dataclass(frozen=True)
class Measured(Line):
    """The longest length of a kind in a run: from where to where, by which jobs, and of how many complete chains.

    A run with no complete chain has no length. A chain with a late task is `late`, and has no bound and no margin.
    """

    chain: str
    kind: str
    length: int | None = None
    start: int | None = None
    end: int | None = None
    jobs: tuple[Job, ...] | None = None
    count: int | None = None
    bound: int | None = None
    margin: int | None = None
    late: bool = False
    FORMS = (
        "measured {chain} {kind:reaction|age|reduced} {length:ticks} from {start:ticks} to {end:ticks} "
        "jobs {jobs:jobs} count {count:ticks} bound {bound:ticks} margin {margin:number}",
        "measured {chain} {kind:reaction|age|reduced} {length:ticks} from {start:ticks} to {end:ticks} "
        "jobs {jobs:jobs} count {count:ticks} {late:flag}",
        "measured {chain} {kind:reaction|age|reduced} none bound {bound:ticks}",
        "measured {chain} {kind:reaction|age|reduced} none {late:flag}",
    )


@dataclass(frozen=True)
class Replay(Answer):
    """What a run has: three lines for each chain, in the order of the file."""

    measured: tuple[Measured, ...]
    TITLE: ClassVar[str] = "chainlat replay 1"
    COMMAND: ClassVar[str] = "replay"

    @classmethod
    def take(cls, lines: Lines) -> Self:
        lines.literal(cls.TITLE)
        return cls(lines.many(Measured))

    def lines(self) -> Iterator[Line]:
        yield from self.measured


def replay(model: Source, trace: Source, *, program: Program | None = None) -> Replay:
    """Measures the run of a trace. Raises `TraceRefused` where it is none, or its run isn't legal."""
    return Replay.read(the(program).ask("replay", file_of(model), file_of(trace)).text)
