"""`analyse MODEL`: the report, by bounds that no offset changes."""

from __future__ import annotations

from collections.abc import Iterator
from dataclasses import dataclass
from typing import ClassVar, Self

from ..answer import Answer
from ..forms import Job
from ..lines import Line, Lines
from ..program import Program, the
from ..sources import Source, file_of


@dataclass(frozen=True)
class Response(Line):
    """A task: its greatest response and its deadline, in ticks from the arrival. A late task has no response."""

    name: str
    deadline: int
    response: int | None = None
    FORMS = (
        "task {name} response {response:ticks} deadline {deadline:ticks}",
        "task {name} late deadline {deadline:ticks}",
    )


@dataclass(frozen=True)
class Bounds(Line):
    """The bounds of a chain, in ticks. A chain with a late task has none, and `late` is the first such task."""

    name: str
    reaction: int | None = None
    age: int | None = None
    reduced: int | None = None
    late: str | None = None
    FORMS = (
        "chain {name} reaction {reaction:ticks} age {age:ticks} reduced {reduced:ticks}",
        "chain {name} late {late}",
    )


@dataclass(frozen=True)
class Exact(Line):
    """An exact length of a chain, in ticks, with moments and jobs that have it.

    `past` is the limit of a chain whose periods come round together too late for exact lengths; the rest is None.
    """

    chain: str
    kind: str | None = None
    length: int | None = None
    start: int | None = None
    end: int | None = None
    jobs: tuple[Job, ...] | None = None
    past: int | None = None
    FORMS = (
        "exact {chain} {kind:reaction|age|reduced} {length:ticks} from {start:ticks} to {end:ticks} jobs {jobs:jobs}",
        "exact {chain} past {past:ticks}",
    )


@dataclass(frozen=True)
class Requirement(Line):
    """A requirement: its value (None: a task of its chain is late), what is allowed, and the verdict."""

    name: str
    kind: str
    value: int | None
    most: int
    verdict: str
    FORMS = (
        "requirement {name} {kind:reaction|age|reduced|delay} {value:ticks|late} of {most:ticks} "
        "{verdict:met|broken|unshown}",
    )


@dataclass(frozen=True)
class Report(Answer):
    """The report of a model: its tasks, chains, exact lengths and requirements, each in the order of the file."""

    tasks: tuple[Response, ...]
    chains: tuple[Bounds, ...]
    exact: tuple[Exact, ...]
    requirements: tuple[Requirement, ...]
    TITLE: ClassVar[str] = "chainlat report 1"
    COMMAND: ClassVar[str] = "analyse"

    @classmethod
    def take(cls, lines: Lines) -> Self:
        lines.literal(cls.TITLE)
        tasks = lines.many(Response)
        chains: list[Bounds] = []
        exact: list[Exact] = []
        while (chain := lines.maybe(Bounds)) is not None:
            chains.append(chain)
            exact += lines.many(Exact)
        return cls(tasks, tuple(chains), tuple(exact), lines.many(Requirement))

    def lines(self) -> Iterator[Line]:
        yield from self.tasks
        for chain in self.chains:
            yield chain
            yield from (line for line in self.exact if line.chain == chain.name)
        yield from self.requirements


def analyse(model: Source, *, program: Program | None = None) -> Report:
    """Asks for the report of a model. Raises `Refused` where the model is."""
    return Report.read(the(program).ask("analyse", file_of(model)).text)
