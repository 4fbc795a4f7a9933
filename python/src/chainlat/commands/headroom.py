"""`headroom MODEL`: how far all greatest times may grow by plain bounds."""

from __future__ import annotations

from collections.abc import Iterator
from dataclasses import dataclass
from typing import ClassVar, Self

from ..answer import Answer
from ..lines import Line, Lines
from ..program import Program, the
from ..sources import Source, file_of


@dataclass(frozen=True)
class Percent(Line):
    """The greatest percentage, from 1 to 1000."""

    percent: int
    FORMS = ("percent {percent:ticks}",)


@dataclass(frozen=True)
class Headroom(Answer):
    """The headroom of a model in percent; None where 1 percent, or the least times, don't keep all either."""

    percent: int | None
    TITLE: ClassVar[str] = "chainlat headroom 1"
    COMMAND: ClassVar[str] = "headroom"

    @classmethod
    def take(cls, lines: Lines) -> Self:
        lines.literal(cls.TITLE)
        return cls(None if lines.maybe_literal("none") else lines.one(Percent).percent)

    def lines(self) -> Iterator[Line | str]:
        yield "none" if self.percent is None else Percent(self.percent)

    def rows(self) -> Iterator[dict[str, int | None]]:
        """One row."""
        yield {"percent": self.percent}


def headroom(model: Source, *, program: Program | None = None) -> Headroom:
    """Asks how far all greatest times may grow. Raises `Refused` where the model is."""
    return Headroom.read(the(program).ask("headroom", file_of(model)).text)
