"""`margin MODEL`: how far greatest times may grow until something breaks, by what `verify` says."""

from __future__ import annotations

from collections.abc import Iterator
from dataclasses import dataclass
from typing import ClassVar, Self

from ..answer import Answer
from ..lines import Line, Lines
from ..program import Program, the
from ..sources import Source, file_of


@dataclass(frozen=True)
class Unmet(Line):
    """A task or a requirement that isn't met as the model stands, of which nothing is asked."""

    what: str
    name: str
    FORMS = ("unmet {what:task|requirement} {name}",)


@dataclass(frozen=True)
class AllMargin(Line):
    """To how many percent all tasks may grow at once, and what breaks first: a task, a requirement or `limit`."""

    percent: int
    what: str | None = None
    breaks: str | None = None
    FORMS = (
        "all percent {percent:ticks}",
        "all percent {percent:ticks} then {what:task|requirement} {breaks}",
        "all percent {percent:ticks} then {what:limit}",
    )


@dataclass(frozen=True)
class TaskMargin(Line):
    """To how many percent a task may grow, what it takes at most now and then, in ticks, and what breaks first."""

    task: str
    percent: int
    now: int
    grown: int
    what: str | None = None
    breaks: str | None = None
    FORMS = (
        "task {task} percent {percent:ticks} time {now:ticks} to {grown:ticks}",
        "task {task} percent {percent:ticks} time {now:ticks} to {grown:ticks} then {what:task|requirement} {breaks}",
        "task {task} percent {percent:ticks} time {now:ticks} to {grown:ticks} then {what:limit}",
    )


@dataclass(frozen=True)
class Margin(Answer):
    """The margins of a model. Without `what` a margin ends at 1000 percent, where the search ends."""

    unmet: tuple[Unmet, ...]
    all: AllMargin
    tasks: tuple[TaskMargin, ...]
    TITLE: ClassVar[str] = "chainlat margin 1"
    COMMAND: ClassVar[str] = "margin"

    @classmethod
    def take(cls, lines: Lines) -> Self:
        lines.literal(cls.TITLE)
        return cls(lines.many(Unmet), lines.one(AllMargin), lines.many(TaskMargin))

    def lines(self) -> Iterator[Line]:
        yield from self.unmet
        yield self.all
        yield from self.tasks


def margin(model: Source, *, program: Program | None = None) -> Margin:
    """Asks how far greatest times may grow. Raises `Refused` where the model is."""
    return Margin.read(the(program).ask("margin", file_of(model)).text)
