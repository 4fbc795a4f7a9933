"""`cut MODEL`: the best cut of each chain into pieces."""

from __future__ import annotations

from collections.abc import Iterator
from dataclasses import dataclass
from typing import ClassVar, Self

from ..answer import Answer
from ..lines import Line, Lines
from ..program import Program, the
from ..sources import Source, file_of


@dataclass(frozen=True)
class Cut(Line):
    """The best cut of a chain: a bound on its reaction in ticks, and the group at which each piece begins, from 0.

    A chain with a late task has no cut, and `late` is the first such task.
    """

    chain: str
    bound: int | None = None
    pieces: tuple[int, ...] | None = None
    late: str | None = None
    FORMS = ("cut {chain} bound {bound:ticks} pieces {pieces:numbers}", "cut {chain} late {late}")


@dataclass(frozen=True)
class Cuts(Answer):
    """The best cuts of all chains, in the order of the file."""

    cuts: tuple[Cut, ...]
    TITLE: ClassVar[str] = "chainlat cut 1"
    COMMAND: ClassVar[str] = "cut"

    @classmethod
    def take(cls, lines: Lines) -> Self:
        lines.literal(cls.TITLE)
        return cls(lines.many(Cut))

    def lines(self) -> Iterator[Line]:
        yield from self.cuts


def cut(model: Source, *, program: Program | None = None) -> Cuts:
    """Asks for the best cuts. Raises `Refused` where the model is."""
    return Cuts.read(the(program).ask("cut", file_of(model)).text)
