"""`edit MODEL EDITS`: what is found of a model as a list of edits changes it."""

from __future__ import annotations

from collections.abc import Iterator
from dataclasses import dataclass
from typing import Any, ClassVar, Self

from ..answer import Answer
from ..lines import Line, Lines
from ..program import Program, the
from ..sources import Source, file_of
from .analyse import Report
from .tighten import Tight
from .verify import Verification

Found = Report | Tight | Verification
_KINDS: tuple[type[Found], ...] = (Report, Tight, Verification)


@dataclass(frozen=True)
class Edited(Answer):
    """The answers of the lines `report`, `tighten` and `verify` of a list, in their order."""

    answers: tuple[Found, ...]
    COMMAND: ClassVar[str] = "edit"

    @classmethod
    def take(cls, lines: Lines) -> Self:
        answers: list[Found] = []
        while (title := lines.peek()) is not None:
            for kind in _KINDS:
                if kind.TITLE == title:
                    answers.append(kind.take(lines))
                    break
            else:
                raise lines.unknown("wanted the title of a report")
        return cls(tuple(answers))

    def lines(self) -> Iterator[Line | str]:
        for answer in self.answers:
            yield answer.TITLE
            yield from answer.lines()

    def __str__(self) -> str:
        return "".join(map(str, self.answers))

    def rows(self) -> Iterator[dict[str, Any]]:
        """The rows of all answers, each with the number of its answer, from 0, as `answer`."""
        for number, answer in enumerate(self.answers):
            for row in answer.rows():
                yield {"answer": number, **row}


def edit(model: Source, edits: Source, *, program: Program | None = None) -> Edited:
    """Makes the edits of a list, and asks what each of its lines asks for. Raises `EditsRefused` where one is."""
    return Edited.read(the(program).ask("edit", file_of(model), file_of(edits)).text)
