"""`observe MODEL TRACE`: what a recording shows, legal or not, beside what the model says."""

from __future__ import annotations

from collections.abc import Iterator
from dataclasses import dataclass
from typing import Any, ClassVar, Self

from ..answer import Answer
from ..lines import Line, Lines
from ..program import Program, the
from ..sources import Source, file_of


@dataclass(frozen=True)
class Illegal(Line):
    """The first rule that a run breaks: of a task at the tick of an arrival, or of a core at a tick."""

    rule: str
    tick: int
    task: str | None = None
    core: str | None = None
    FORMS = (
        "illegal {rule:arrival|release|time|missing} task {task} tick {tick:ticks}",
        "illegal {rule:schedule} core {core} tick {tick:ticks}",
    )


@dataclass(frozen=True)
class ObservedResponse(Line):
    """A task: how many jobs, how many missed deadlines, the greatest response in ticks and the first job that has it.

    A late task has no bound. `above` says that the response is above its bound.
    """

    name: str
    jobs: int
    misses: int
    response: int | None = None
    job: int | None = None
    bound: int | None = None
    late: bool = False
    above: bool = False
    FORMS = (
        "task {name} jobs {jobs:ticks} misses {misses:ticks} response {response:number} job {job:ticks} "
        "bound {bound:ticks}[ {above:flag}]",
        "task {name} jobs {jobs:ticks} misses {misses:ticks} response {response:number} job {job:ticks} {late:flag}",
        "task {name} jobs {jobs:ticks} misses {misses:ticks} response none bound {bound:ticks}",
        "task {name} jobs {jobs:ticks} misses {misses:ticks} response none {late:flag}",
    )


@dataclass(frozen=True)
class ObservedJitter(Line):
    """From how many to how many ticks after their arrivals jobs were released, and may be."""

    task: str
    least: int
    greatest: int
    least_allowed: int
    greatest_allowed: int
    outside: bool = False
    FORMS = (
        "jitter {task} {least:number} to {greatest:number} of {least_allowed:ticks} to {greatest_allowed:ticks}"
        "[ {outside:flag}]",
    )


@dataclass(frozen=True)
class ObservedTime(Line):
    """From how many to how many ticks a runnable took, and may take. None: it has finished in no job."""

    runnable: str
    least_allowed: int
    greatest_allowed: int
    least: int | None = None
    greatest: int | None = None
    outside: bool = False
    FORMS = (
        "runnable {runnable} {least:ticks} to {greatest:ticks} of {least_allowed:ticks} to {greatest_allowed:ticks}"
        "[ {outside:flag}]",
        "runnable {runnable} none of {least_allowed:ticks} to {greatest_allowed:ticks}",
    )


@dataclass(frozen=True)
class ObservedLength(Line):
    """The longest length of a kind, in ticks (None: no complete chain), beside its bound; a late chain has none."""

    chain: str
    kind: str
    length: int | None
    bound: int | None = None
    late: bool = False
    above: bool = False
    FORMS = (
        "chain {chain} {kind:reaction|age|reduced|delay} {length:number|none} bound {bound:ticks}[ {above:flag}]",
        "chain {chain} {kind:reaction|age|reduced|delay} {length:number|none} {late:flag}",
    )


@dataclass(frozen=True)
class ObservedTask:
    """What a recording shows of a task: its response, its releases if they are to be shown, and its runnables."""

    response: ObservedResponse
    jitter: ObservedJitter | None
    runnables: tuple[ObservedTime, ...]


@dataclass(frozen=True)
class Observation(Answer):
    """What a recording shows. Where it is `unordered`, nothing is measured."""

    illegal: Illegal | None
    unordered: bool
    tasks: tuple[ObservedTask, ...]
    chains: tuple[ObservedLength, ...]
    TITLE: ClassVar[str] = "chainlat observed 1"
    COMMAND: ClassVar[str] = "observe"

    @property
    def is_legal(self) -> bool:
        """Whether the run is legal."""
        return self.illegal is None

    @classmethod
    def take(cls, lines: Lines) -> Self:
        lines.literal(cls.TITLE)
        illegal = None if lines.maybe_literal("legal") else lines.one(Illegal)
        unordered = lines.maybe_literal("unordered")
        tasks: list[ObservedTask] = []
        while (response := lines.maybe(ObservedResponse)) is not None:
            tasks.append(ObservedTask(response, lines.maybe(ObservedJitter), lines.many(ObservedTime)))
        return cls(illegal, unordered, tuple(tasks), lines.many(ObservedLength))

    def lines(self) -> Iterator[Line | str]:
        yield self.illegal or "legal"
        if self.unordered:
            yield "unordered"
        for task in self.tasks:
            yield task.response
            if task.jitter is not None:
                yield task.jitter
            yield from task.runnables
        yield from self.chains

    def rows(self) -> Iterator[dict[str, Any]]:
        """A row for each line of a task, a runnable or a chain."""
        for row in super().rows():
            if row["line"] not in ("legal", "illegal", "unordered"):
                yield row


def observe(model: Source, trace: Source, *, program: Program | None = None) -> Observation:
    """Asks what a recording shows. Raises `TraceRefused` where it is no trace."""
    return Observation.read(the(program).ask("observe", file_of(model), file_of(trace)).text)
