"""`explain MODEL`: what the plain responses and bounds are the sums of."""

from __future__ import annotations

from collections.abc import Iterator
from dataclasses import dataclass
from typing import ClassVar, Self

from ..answer import Answer
from ..lines import Line, Lines
from ..program import Program, the
from ..sources import Source, file_of
from .analyse import Bounds, Response


@dataclass(frozen=True)
class Load(Line):
    """How many millionths of its time the tasks of a core take at most, rounded up for each task."""

    core: str
    load: int
    of: int
    FORMS = ("core {core} load {load:ticks} of {of:ticks}",)


@dataclass(frozen=True)
class Part(Line):
    """A part of a response, in ticks: jitter, block (`by` a whole runnable), own time, jobs above, or what is over."""

    task: str
    jitter: int | None = None
    block: int | None = None
    by: str | None = None
    own: int | None = None
    above: str | None = None
    jobs: int | None = None
    time: int | None = None
    over: int | None = None
    FORMS = (
        "part {task} jitter {jitter:ticks}",
        "part {task} block {block:ticks} by {by}",
        "part {task} own {own:ticks}",
        "part {task} above {above} jobs {jobs:ticks} time {time:ticks}",
        "part {task} over {over:ticks}",
    )


@dataclass(frozen=True)
class PlainGroup(Line):
    """A task that a chain passes: the greatest distance of two arrivals, and when it reads first and writes last."""

    chain: str
    task: str
    distance: int
    read: int
    write: int
    FORMS = ("group {chain} {task} distance {distance:ticks} read {read:number} write {write:number}",)


@dataclass(frozen=True)
class PlainHop(Line):
    """How much later the next job of a chain arrives, in the direction of a reaction and of an age, in ticks."""

    chain: str
    writer: str
    reader: str
    way: str
    forward: int
    backward: int
    FORMS = (
        "hop {chain} {writer} {reader} {way:plain|saves|same} forward {forward:number} backward {backward:number}",
    )


@dataclass(frozen=True)
class TightLengths(Line):
    """The tight bounds of a chain, in ticks."""

    chain: str
    reaction: int
    age: int
    reduced: int
    FORMS = ("tight {chain} reaction {reaction:ticks} age {age:ticks} reduced {reduced:ticks}",)


@dataclass(frozen=True)
class MissedArrival(Line):
    """The arrival of a job that just misses the input. It may lie before 0."""

    chain: str
    task: str
    arrival: int
    FORMS = ("missed {chain} {task} arrival {arrival:number}",)


@dataclass(frozen=True)
class TakenArrival(Line):
    """The arrival of a job that carries the input. It may lie before 0."""

    chain: str
    task: str
    arrival: int
    FORMS = ("taken {chain} {task} arrival {arrival:number}",)


@dataclass(frozen=True)
class TaskSum:
    """A response and what it is the sum of; of a late task the parts add up to its deadline and `over` more."""

    response: Response
    parts: tuple[Part, ...]


@dataclass(frozen=True)
class ChainSum:
    """The bounds of a chain and what they are the sums of. Of a chain with a late task there are bounds alone."""

    bounds: Bounds
    groups: tuple[PlainGroup, ...]
    hops: tuple[PlainHop, ...]
    tight: TightLengths | None
    missed: tuple[MissedArrival, ...]
    taken: tuple[TakenArrival, ...]


def _chain(lines: Lines, bounds: Bounds) -> ChainSum:
    groups: list[PlainGroup] = []
    hops: list[PlainHop] = []
    while (group := lines.maybe(PlainGroup)) is not None:
        groups.append(group)
        hop = lines.maybe(PlainHop)
        if hop is None:
            break
        hops.append(hop)
    tight = lines.maybe(TightLengths)
    return ChainSum(
        bounds, tuple(groups), tuple(hops), tight, lines.many(MissedArrival), lines.many(TakenArrival)
    )


def _lines_of(chain: ChainSum) -> Iterator[Line]:
    yield chain.bounds
    for number, group in enumerate(chain.groups):
        yield group
        yield from chain.hops[number:number + 1]
    if chain.tight is not None:
        yield chain.tight
    yield from chain.missed
    yield from chain.taken


@dataclass(frozen=True)
class Explanation(Answer):
    """Loads of cores, and the sums of all tasks and chains."""

    cores: tuple[Load, ...]
    tasks: tuple[TaskSum, ...]
    chains: tuple[ChainSum, ...]
    TITLE: ClassVar[str] = "chainlat explain 1"
    COMMAND: ClassVar[str] = "explain"

    @classmethod
    def take(cls, lines: Lines) -> Self:
        lines.literal(cls.TITLE)
        cores = lines.many(Load)
        tasks: list[TaskSum] = []
        while (response := lines.maybe(Response)) is not None:
            tasks.append(TaskSum(response, lines.many(Part)))
        chains: list[ChainSum] = []
        while (bounds := lines.maybe(Bounds)) is not None:
            chains.append(_chain(lines, bounds))
        return cls(cores, tuple(tasks), tuple(chains))

    def lines(self) -> Iterator[Line]:
        yield from self.cores
        for task in self.tasks:
            yield task.response
            yield from task.parts
        for chain in self.chains:
            yield from _lines_of(chain)


def explain(model: Source, *, program: Program | None = None) -> Explanation:
    """Asks what responses and bounds are the sums of. Raises `Refused` where the model is."""
    return Explanation.read(the(program).ask("explain", file_of(model)).text)
