"""`why MODEL WHAT NAME`: why a task is answered, or a chain or a requirement bounded, as `verify` says."""

from __future__ import annotations

from collections.abc import Iterator
from dataclasses import dataclass
from typing import ClassVar, Self

from ..answer import Answer
from ..lines import Line, Lines
from ..program import Program, the
from ..sources import Source, file_of
from .verify import RequirementVerdict, TaskVerdict


@dataclass(frozen=True)
class ChainBound(Line):
    """A bound of a chain and the longest that a run shows, in ticks; or the first late task of the chain."""

    name: str
    kind: str | None = None
    bound: int | None = None
    seen: int | None = None
    late: str | None = None
    FORMS = (
        "chain {name} {kind:reaction|age|reduced|delay} {bound:ticks}[ seen {seen:ticks}]",
        "chain {name} late {late}",
    )


@dataclass(frozen=True)
class Group(Line):
    """A task that a chain passes: the greatest distance of two arrivals, and when it reads first and writes last.

    A group that is `free` keeps no phase. Times are in ticks, the last two from an arrival.
    """

    chain: str
    task: str
    distance: int
    read: int
    write: int
    free: bool = False
    FORMS = ("group {chain} {task} distance {distance:ticks} read {read:number} write {write:number}[ {free:flag}]",)


@dataclass(frozen=True)
class Hop(Line):
    """The way from one group to the next, and by how many ticks the missed job of the reader came too early."""

    chain: str
    writer: str
    reader: str
    way: str
    lag: int | None = None
    missed_by: int | None = None
    FORMS = (
        "hop {chain} {writer} {reader} {way:plain|saves} lag {lag:number}[ missed by {missed_by:number}]",
        "hop {chain} {writer} {reader} {way:same}",
    )


@dataclass(frozen=True)
class Missed(Line):
    """A job that just misses the input: its arrival and its read."""

    chain: str
    task: str
    arrival: int
    read: int
    FORMS = ("missed {chain} {task} arrival {arrival:number} read {read:number}",)


@dataclass(frozen=True)
class Taken(Line):
    """A job that carries the input: its arrival and its write."""

    chain: str
    task: str
    arrival: int
    write: int
    FORMS = ("taken {chain} {task} arrival {arrival:number} write {write:number}",)


@dataclass(frozen=True)
class Length(Line):
    """From where to where the walk goes."""

    chain: str
    start: int
    end: int
    FORMS = ("length {chain} from {start:number} to {end:number}",)


@dataclass(frozen=True)
class Window(Line):
    """The worst window of a task: the arrival, from where work delays it, and its finish.

    Of a late task it ends at the deadline, and `over` is by how many ticks the shares pass it.
    """

    task: str
    arrival: int
    start: int
    end: int
    over: int | None = None
    FORMS = (
        "window {task} arrival {arrival:number} from {start:number} to {end:number}[ over {over:ticks}]",
    )


@dataclass(frozen=True)
class Share(Line):
    """A share of a window, in ticks: a block by a whole runnable below, own time, or the jobs of a task above."""

    task: str
    block: int | None = None
    by: str | None = None
    own: int | None = None
    above: str | None = None
    jobs: int | None = None
    time: int | None = None
    free: bool = False
    FORMS = (
        "share {task} block {block:ticks} by {by}",
        "share {task} own {own:ticks}",
        "share {task} above {above} jobs {jobs:ticks} time {time:ticks}[ {free:flag}]",
    )


@dataclass(frozen=True)
class Reason(Answer):
    """Why something is as `verify` says: a walk of a chain, or the worst window of a task."""

    requirement: RequirementVerdict | None
    chain: ChainBound | None
    groups: tuple[Group, ...]
    hops: tuple[Hop, ...]
    missed: tuple[Missed, ...]
    taken: tuple[Taken, ...]
    length: Length | None
    task: TaskVerdict | None
    window: Window | None
    shares: tuple[Share, ...]
    TITLE: ClassVar[str] = "chainlat why 1"
    COMMAND: ClassVar[str] = "why"

    @classmethod
    def take(cls, lines: Lines) -> Self:
        lines.literal(cls.TITLE)
        requirement = lines.maybe(RequirementVerdict)
        chain = lines.maybe(ChainBound)
        groups: list[Group] = []
        hops: list[Hop] = []
        while (group := lines.maybe(Group)) is not None:
            groups.append(group)
            hop = lines.maybe(Hop)
            if hop is None:
                break
            hops.append(hop)
        return cls(
            requirement, chain, tuple(groups), tuple(hops), lines.many(Missed), lines.many(Taken),
            lines.maybe(Length), lines.maybe(TaskVerdict), lines.maybe(Window), lines.many(Share),
        )

    def lines(self) -> Iterator[Line]:
        yield from (it for it in (self.requirement, self.chain) if it is not None)
        for number, group in enumerate(self.groups):
            yield group
            yield from self.hops[number:number + 1]
        yield from self.missed
        yield from self.taken
        yield from (it for it in (self.length, self.task, self.window) if it is not None)
        yield from self.shares


def why(model: Source, what: str, name: str, *, program: Program | None = None) -> Reason:
    """Asks why. `what` is `response`, and `name` a task; or `reaction`, `age`, `reduced` or `delay`, and a chain; or
    `requirement`, and a requirement. Raises `NameUnknown` where the model has nothing of the name."""
    return Reason.read(the(program).ask("why", file_of(model), what, name).text)
