"""`order MODEL`: priorities under which no task is late, by the plain analysis."""

from __future__ import annotations

from collections.abc import Iterator
from dataclasses import dataclass
from typing import ClassVar, Self

from ..answer import Answer
from ..lines import Line, Lines
from ..program import Program, the
from ..sources import Source, file_of


@dataclass(frozen=True)
class Priority(Line):
    """The priority of a task."""

    task: str
    priority: int
    FORMS = ("priority {task} {priority:ticks}",)


@dataclass(frozen=True)
class NoOrder(Line):
    """The first core that has no such order."""

    core: str
    FORMS = ("none {core}",)


@dataclass(frozen=True)
class Order(Answer):
    """Priorities of all tasks in the order of the file, or the first core, `none`, that has none."""

    priorities: tuple[Priority, ...]
    none: str | None
    TITLE: ClassVar[str] = "chainlat order 1"
    COMMAND: ClassVar[str] = "order"

    @classmethod
    def take(cls, lines: Lines) -> Self:
        lines.literal(cls.TITLE)
        none = lines.maybe(NoOrder)
        return cls((), none.core) if none is not None else cls(lines.many(Priority), None)

    def lines(self) -> Iterator[Line]:
        yield from self.priorities
        if self.none is not None:
            yield NoOrder(self.none)


def order(model: Source, *, program: Program | None = None) -> Order:
    """Asks for priorities. Raises `Refused` where the model is."""
    return Order.read(the(program).ask("order", file_of(model)).text)
