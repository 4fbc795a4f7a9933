"""Lines of an answer, and how a text is read line by line."""

from __future__ import annotations

from collections.abc import Iterator
from dataclasses import dataclass, fields
from typing import Any, ClassVar, Self, TypeVar

from .errors import UnknownLine
from .forms import form_of


@dataclass(frozen=True)
class Line:
    """A line of an answer. A class of lines has one or more forms, of which each line has exactly one."""

    FORMS: ClassVar[tuple[str, ...]] = ()

    @classmethod
    def parse(cls, line: str) -> Self | None:
        """The line that a text is, without its line end; None where it is of none of the forms."""
        for text in cls.FORMS:
            values = form_of(text).read(line)
            if values is not None:
                return cls(**values)
        return None

    def __str__(self) -> str:
        values: dict[str, Any] = {field.name: getattr(self, field.name) for field in fields(self)}
        for text in self.FORMS:
            form = form_of(text)
            if form.fits(values):
                return form.write(values)
        raise ValueError(f"{self!r} is no line: its values go together in none of its forms")


SomeLine = TypeVar("SomeLine", bound=Line)


class Lines:
    """The lines of a text, of which each is taken once, in order."""

    def __init__(self, text: str) -> None:
        *self._lines, rest = text.split("\n")
        self._next = 0
        if rest:
            raise UnknownLine(len(self._lines) + 1, rest, "it has no line end")

    def __iter__(self) -> Iterator[str]:
        """The lines that are left."""
        return iter(self._lines[self._next:])

    def peek(self) -> str | None:
        """The next line, which isn't taken; None at the end."""
        return self._lines[self._next] if self._next < len(self._lines) else None

    def literal(self, wanted: str) -> None:
        """Takes a line that is this very text."""
        if not self.maybe_literal(wanted):
            raise self.unknown(f"wanted {wanted!r}")

    def maybe_literal(self, wanted: str) -> bool:
        """Takes the next line if it is this very text, and says whether it was."""
        found = self.peek() == wanted
        self._next += found
        return found

    def maybe(self, kind: type[SomeLine]) -> SomeLine | None:
        """Takes the next line if it is of this kind."""
        line = self.peek()
        found = None if line is None else kind.parse(line)
        if found is not None:
            self._next += 1
        return found

    def one(self, kind: type[SomeLine]) -> SomeLine:
        """Takes the next line, which has to be of this kind."""
        found = self.maybe(kind)
        if found is None:
            raise self.unknown(f"wanted {kind.FORMS[0]}")
        return found

    def many(self, kind: type[SomeLine]) -> tuple[SomeLine, ...]:
        """Takes all next lines of this kind."""
        found = []
        while (line := self.maybe(kind)) is not None:
            found.append(line)
        return tuple(found)

    def end(self) -> None:
        """Says that no line is left."""
        if self.peek() is not None:
            raise self.unknown("no line of this answer has this form here")

    def unknown(self, why: str) -> UnknownLine:
        """The error of the next line."""
        return UnknownLine(self._next + 1, self.peek() or "", why)
