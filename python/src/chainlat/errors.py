"""Errors: one class for each status that isn't a command's own, and those of reading and of finding the program."""

from __future__ import annotations

from typing import TYPE_CHECKING, ClassVar

if TYPE_CHECKING:
    from .commands.check import Check
    from .refusals import Refusal


class ChainlatError(Exception):
    """What all errors of this package are."""


class UnknownLine(ChainlatError):
    """A line of an answer, a trace or a list that has none of the forms known.

    `number` is its number in the text, counted from 1; `line` is the line, and `why` says what was looked for.
    """

    def __init__(self, number: int, line: str, why: str) -> None:
        super().__init__(f"line {number} isn't known: {line!r} ({why})")
        self.number, self.line, self.why = number, line, why


class ProgramMissing(ChainlatError):
    """The executable `chainlat` isn't there."""


class ProgramFailed(ChainlatError):
    """The program ended as none of its commands does: killed, out of time, or with a status that isn't documented."""

    def __init__(self, words: tuple[str, ...], status: int | None, text: str) -> None:
        ended = "ran out of time" if status is None else f"ended with status {status}"
        first = text.split("\n", 1)[0]
        super().__init__(f"chainlat {' '.join(words)} {ended}" + (f": {first}" if first else ""))
        self.words, self.status, self.text = words, status, text


class Refused(ChainlatError):
    """A command was refused, with the status and the line that its answer has.

    - `status`: the exit status of the program
    - `line`: the line that it wrote in the place of its answer; empty for the statuses that have none
    - `refusal`: the values of that line
    - `answer`: what stood before it, of `edit`; else empty
    - `advice`: what `check` says of a refused model, list or trace, else None
    - `file`: the file that is refused, as it was given; None for one that is no file
    - `row`, `column`: where in that file, counted from 1, where `check` knows it
    """

    STATUS: ClassVar[int] = 0

    def __init__(
        self,
        line: str,
        refusal: Refusal | None = None,
        *,
        advice: Check | None = None,
        file: str | None = None,
        answer: str = "",
    ) -> None:
        self.status, self.line, self.refusal = self.STATUS, line, refusal
        self.advice, self.file, self.answer = advice, file, answer
        self.row: int | None = getattr(refusal, "line", None)
        self.column: int | None = None
        if advice is not None and advice.at is not None:
            self.row, self.column = advice.at.row, advice.at.column
        super().__init__(self._told())

    def _told(self) -> str:
        place = ":".join(str(it) for it in (self.file, self.row, self.column) if it is not None)
        first = self.line or type(self).__doc__ or ""
        told = [f"{place}: {first}" if self.file is not None else first]
        if self.advice is not None:
            told += [str(line) for line in self.advice.reasons]
        return "\n".join(told)


class WordsRefused(Refused):
    """The words aren't a command and its arguments."""

    STATUS = 2


class FileFault(Refused):
    """A file couldn't be read."""

    STATUS = 3


class FileTooLong(Refused):
    """A file has more bytes than its limit."""

    STATUS = 4


class ModelRefused(Refused):
    """The model file breaks a rule of the format."""

    STATUS = 5


class TraceRefused(Refused):
    """The file is no trace, or its run isn't legal."""

    STATUS = 6


class EditsRefused(Refused):
    """A line of a list of edits is no edit, or is refused."""

    STATUS = 7


class SimulationRefused(Refused):
    """A run has too many executions of runnables."""

    STATUS = 8


class OutputFailed(Refused):
    """The program couldn't write its answer."""

    STATUS = 9


class MemoryRanOut(Refused):
    """The program ran out of memory."""

    STATUS = 10


class ArgumentRefused(Refused):
    """An argument isn't text."""

    STATUS = 12


class WindowRefused(Refused):
    """The window of a picture isn't within the run."""

    STATUS = 14


class NameUnknown(Refused):
    """The model has nothing of that name."""

    STATUS = 15


class RunRefused(Refused):
    """A run would have too many ticks."""

    STATUS = 16


class ModelError(ChainlatError, ValueError):
    """A value that a key of a model can't have, or a name that isn't there."""


ERRORS: dict[int, type[Refused]] = {
    kind.STATUS: kind
    for kind in (
        WordsRefused, FileFault, FileTooLong, ModelRefused, TraceRefused, EditsRefused, SimulationRefused,
        OutputFailed, MemoryRanOut, ArgumentRefused, WindowRefused, NameUnknown, RunRefused,
    )
}
