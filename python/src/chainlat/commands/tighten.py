"""`tighten MODEL`: sharp responses and bounds, which know offsets, and the delays of chains."""

from __future__ import annotations

from collections.abc import Iterator
from dataclasses import dataclass
from typing import ClassVar, Self

from ..answer import Answer
from ..lines import Line, Lines
from ..program import Program, the
from ..sources import Source, file_of
from .analyse import Response


@dataclass(frozen=True)
class TightBounds(Line):
    """The sharp bounds of a chain, in ticks. A chain with a late task has none, and `late` is the first such task."""

    name: str
    reaction: int | None = None
    age: int | None = None
    reduced: int | None = None
    delay: int | None = None
    late: str | None = None
    FORMS = (
        "chain {name} reaction {reaction:ticks} age {age:ticks} reduced {reduced:ticks} delay {delay:ticks}",
        "chain {name} late {late}",
    )


@dataclass(frozen=True)
class Tight(Answer):
    """The sharp report: tasks and chains, in the order of the file."""

    tasks: tuple[Response, ...]
    chains: tuple[TightBounds, ...]
    TITLE: ClassVar[str] = "chainlat tight 2"
    COMMAND: ClassVar[str] = "tighten"

    @classmethod
    def take(cls, lines: Lines) -> Self:
        lines.literal(cls.TITLE)
        return cls(lines.many(Response), lines.many(TightBounds))

    def lines(self) -> Iterator[Line]:
        yield from self.tasks
        yield from self.chains


def tighten(model: Source, *, program: Program | None = None) -> Tight:
    """Asks for the sharp bounds of a model. Raises `Refused` where the model is."""
    return Tight.read(the(program).ask("tighten", file_of(model)).text)
