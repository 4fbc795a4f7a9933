"""What all answers have in common: text, JSON and a frame."""

from __future__ import annotations

import json
from abc import abstractmethod
from collections.abc import Iterable
from dataclasses import dataclass, fields, is_dataclass
from typing import TYPE_CHECKING, Any, ClassVar, Self

from .forms import Job
from .lines import Line, Lines

if TYPE_CHECKING:
    import pandas


def plain(value: Any) -> Any:
    """A value as JSON has it: dataclasses are objects, tuples are arrays, a job is an object of task and number."""
    if is_dataclass(value):
        return {field.name: plain(getattr(value, field.name)) for field in fields(value)}
    if isinstance(value, Job):
        return {"task": value.task, "number": value.number}
    if isinstance(value, tuple):
        return [plain(item) for item in value]
    return value


def frame_of(rows: Iterable[dict[str, Any]]) -> pandas.DataFrame:
    """A frame with a row for each of these, and whole numbers as `Int64`, in which `<NA>` is what isn't there."""
    import pandas

    frame = pandas.DataFrame(list(rows), dtype=object)
    for column in frame.columns:
        known = frame[column].dropna()
        if len(known) and all(isinstance(value, int) and not isinstance(value, bool) for value in known):
            frame[column] = frame[column].astype("Int64")
    return frame.infer_objects()


@dataclass(frozen=True)
class Answer:
    """An answer of a command. `str(answer)` is the program's text, byte for byte."""

    TITLE: ClassVar[str] = ""
    COMMAND: ClassVar[str] = ""

    @classmethod
    def read(cls, text: str) -> Self:
        """Reads a whole text, line by line. Raises `UnknownLine` at the first line that isn't known."""
        lines = Lines(text)
        answer = cls.take(lines)
        lines.end()
        return answer

    @classmethod
    @abstractmethod
    def take(cls, lines: Lines) -> Self:
        """Takes the lines of this answer, and leaves those behind it."""

    @abstractmethod
    def lines(self) -> Iterable[Line | str]:
        """The lines below the title, in order."""

    def __str__(self) -> str:
        return "".join(f"{line}\n" for line in (self.TITLE, *self.lines()))

    def to_json(self) -> str:
        """The answer as JSON, by the schema `schema/COMMAND.schema.json`."""
        return json.dumps({"answer": self.COMMAND, **plain(self)}, indent=2, ensure_ascii=False) + "\n"

    def rows(self) -> Iterable[dict[str, Any]]:
        """The rows of the frame: of each line its first word and its values."""
        for line in self.lines():
            if isinstance(line, Line):
                yield {"line": str(line).split(" ", 1)[0], **{f.name: getattr(line, f.name) for f in fields(line)}}
            else:
                yield {"line": line}

    def to_frame(self) -> pandas.DataFrame:
        """The answer as a frame of pandas: a row a line, times in ticks."""
        return frame_of(self.rows())
