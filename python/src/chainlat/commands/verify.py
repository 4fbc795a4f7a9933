"""`verify MODEL`: of each task and each requirement whether it is met, broken or unshown."""

from __future__ import annotations

from collections.abc import Iterator
from dataclasses import dataclass
from typing import Any, ClassVar, Self

from ..answer import Answer
from ..lines import Line, Lines
from ..program import Program, the
from ..sources import Source, file_of


@dataclass(frozen=True)
class Sum(Line):
    """How many tasks and requirements are met, broken and unshown."""

    met: int
    broken: int
    unshown: int
    FORMS = ("sum met {met:ticks} broken {broken:ticks} unshown {unshown:ticks}",)


@dataclass(frozen=True)
class TaskVerdict(Line):
    """A task: its response (None: it is late), its deadline, the verdict, and what a run showed, in ticks."""

    name: str
    response: int | None
    deadline: int
    verdict: str
    seen: int | None = None
    FORMS = (
        "task {name} response {response:ticks|none} of {deadline:ticks} {verdict:met|broken|unshown}"
        "[ seen {seen:ticks}]",
    )

    @property
    def value(self) -> int | None:
        """The response, in ticks."""
        return self.response

    @property
    def limit(self) -> int:
        """The deadline, in ticks."""
        return self.deadline


@dataclass(frozen=True)
class RequirementVerdict(Line):
    """A requirement: its bound (None: a task of its chain, `by`, is late), what is allowed, and the verdict.

    `seen` is the longest that the run made for it shows. Times are in ticks.
    """

    name: str
    chain: str
    kind: str
    bound: int | None
    most: int
    verdict: str
    seen: int | None = None
    by: str | None = None
    FORMS = (
        "requirement {name} {chain} {kind:reaction|age|reduced|delay} {bound:ticks|none} of {most:ticks} "
        "{verdict:met|broken|unshown}[ seen {seen:ticks}][ by {by}]",
    )

    @property
    def value(self) -> int | None:
        """The bound, in ticks."""
        return self.bound

    @property
    def limit(self) -> int:
        """What is allowed, in ticks."""
        return self.most


Verdict = TaskVerdict | RequirementVerdict


def room_of(verdict: Verdict) -> int | None:
    """How many ticks the value stays below its limit; less than 0 where it is above, None where there is no value."""
    return None if verdict.value is None else verdict.limit - verdict.value


@dataclass(frozen=True)
class Verification(Answer):
    """The verdicts of a model, in the order of its file. `is_met` is what the exit status says: 0, or else 13."""

    sum: Sum
    tasks: tuple[TaskVerdict, ...]
    requirements: tuple[RequirementVerdict, ...]
    TITLE: ClassVar[str] = "chainlat verify 2"
    COMMAND: ClassVar[str] = "verify"

    @classmethod
    def take(cls, lines: Lines) -> Self:
        lines.literal(cls.TITLE)
        return cls(lines.one(Sum), lines.many(TaskVerdict), lines.many(RequirementVerdict))

    def lines(self) -> Iterator[Line]:
        yield self.sum
        yield from self.tasks
        yield from self.requirements

    @property
    def verdicts(self) -> tuple[Verdict, ...]:
        """All verdicts, tasks first."""
        return (*self.tasks, *self.requirements)

    @property
    def is_met(self) -> bool:
        """Whether everything is met."""
        return not self.sum.broken and not self.sum.unshown

    def rows(self) -> Iterator[dict[str, Any]]:
        """A row for each task and requirement, with `value`, `limit` and `room` in ticks."""
        for it in self.verdicts:
            of_chain = isinstance(it, RequirementVerdict)
            yield {
                "line": "requirement" if of_chain else "task",
                "name": it.name,
                "chain": it.chain if isinstance(it, RequirementVerdict) else None,
                "kind": it.kind if isinstance(it, RequirementVerdict) else "response",
                "value": it.value,
                "limit": it.limit,
                "room": room_of(it),
                "verdict": it.verdict,
                "seen": it.seen,
                "by": it.by if isinstance(it, RequirementVerdict) else None,
            }


def verify(model: Source, *, program: Program | None = None) -> Verification:
    """Asks what is decided of each deadline and requirement. Raises `Refused` where the model is."""
    return Verification.read(the(program).ask("verify", file_of(model), statuses=(0, 13)).text)
