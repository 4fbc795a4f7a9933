"""The forms of lines: how a line is read and written.

A form is the documented line with its values in braces, such as

    task {name} response {response:ticks|none} of {deadline:ticks} {verdict:met|broken|unshown}[ seen {seen:ticks}]

Everything outside braces stands in the line as it is. What a value looks like is said behind its colon:

| Kind | The value |
|---|---|
| (none) | a name: 1 to 64 letters, digits, `_`, `.` and `-` |
| `ticks` | a whole number, not negative |
| `number` | a whole number, which may be negative |
| `numbers` | one or more whole numbers, with blanks between them |
| `names` | one to twelve names, with blanks between them |
| `jobs` | one or more jobs `NAME:NUMBER`, with blanks between them |
| `rest` | everything up to the end of the line |
| `flag` | the field's own name as a word: `True` where it stands |
| other words | one of these words, with `|` between them |

`ticks|WORD` and `number|WORD` are a number or that word, which is read as `None`. What stands in brackets may be
missing; its fields are `None` then, or `False`.

Numbers are canonical (no sign, no leading zero), so a line that is read is written back as the very same line.
"""

from __future__ import annotations

import re
from collections.abc import Callable, Mapping
from dataclasses import dataclass
from functools import cache
from typing import Any, NamedTuple

NAME = r"[A-Za-z0-9_.\-]{1,64}"
TICKS = r"(?:0|[1-9][0-9]*)"
NUMBER = rf"(?:-[1-9][0-9]*|{TICKS})"

_PIECE = re.compile(r"(\[)|(\])|\{(\w+)(?::([^}]*))?\}|([^\[\]{}]+)")


class Job(NamedTuple):
    """A job: its task, and its number among the jobs of that task, counted from 0."""

    task: str
    number: int

    def __str__(self) -> str:
        return f"{self.task}:{self.number}"


class Kind(NamedTuple):
    """A kind of value: the pattern of its text, how it is read, and how it is written."""

    pattern: str
    read: Callable[[str], Any]
    write: Callable[[Any], str]


def _spaced(pattern: str, most: str = "*") -> str:
    return rf"{pattern}(?: {pattern}){most}"


def _job(text: str) -> Job:
    task, _, number = text.partition(":")
    return Job(task, int(number))


def _joined(values: Any) -> str:
    return " ".join(map(str, values))


_KINDS = {
    "name": Kind(NAME, str, str),
    "ticks": Kind(TICKS, int, str),
    "number": Kind(NUMBER, int, str),
    "numbers": Kind(_spaced(TICKS), lambda text: tuple(map(int, text.split(" "))), _joined),
    "names": Kind(_spaced(NAME, "{0,11}"), lambda text: tuple(text.split(" ")), _joined),
    "jobs": Kind(_spaced(rf"{NAME}:{TICKS}"), lambda text: tuple(map(_job, text.split(" "))), _joined),
    "rest": Kind(r"[^\n]*", str, str),
}


def _kind(field: str, said: str) -> Kind:
    """The kind that stands behind the colon of a field."""
    if said == "flag":
        return Kind(field, bool, lambda _: field)
    if said in _KINDS:
        return _KINDS[said]
    first, _, word = said.partition("|")
    if first in ("ticks", "number"):
        number = _KINDS[first]
        return Kind(
            f"{number.pattern}|{word}",
            lambda text: None if text == word else int(text),
            lambda value: word if value is None else str(value),
        )
    return Kind(said, str, str)


def _is_there(value: Any) -> bool:
    return value is not None and value is not False


@dataclass(frozen=True)
class Part:
    """A literal text or a field of a form. `option` numbers the brackets that it stands in, from 1; 0 is outside."""

    text: str
    field: str | None
    kind: Kind
    option: int
    may_be_none: bool


@dataclass(frozen=True)
class Form:
    """A form that is ready to read and to write lines."""

    parts: tuple[Part, ...]
    pattern: re.Pattern[str]

    def read(self, line: str) -> dict[str, Any] | None:
        """The values of a line of this form, and None for another line."""
        match = self.pattern.fullmatch(line)
        if match is None:
            return None
        found = match.groupdict()
        return {
            part.field: part.kind.read(found[part.field])
            for part in self.parts
            if part.field is not None and found[part.field] is not None
        }

    def fits(self, values: Mapping[str, Any]) -> bool:
        """Whether these values can be written so: each field outside brackets is there, and no other value is."""
        fields = {part.field: part for part in self.parts if part.field is not None}
        there = {name for name, value in values.items() if _is_there(value)}
        needed = {name for name, part in fields.items() if not part.may_be_none and not part.option}
        return needed <= there <= set(fields)

    def write(self, values: Mapping[str, Any]) -> str:
        """The line with these values."""
        shown = {
            part.option
            for part in self.parts
            if part.field is not None and _is_there(values.get(part.field))
        } | {0}
        return "".join(
            part.text if part.field is None else part.kind.write(values.get(part.field))
            for part in self.parts
            if part.option in shown
        )


@cache
def form_of(text: str) -> Form:
    """The form that a text describes."""
    parts: list[Part] = []
    pattern, option, options = "", 0, 0
    for opens, closes, field, said, literal in _PIECE.findall(text):
        if opens:
            options += 1
            option = options
            pattern += "(?:"
        elif closes:
            option = 0
            pattern += ")?"
        elif field:
            kind = _kind(field, said or "name")
            parts.append(Part("", field, kind, option, "|" in said and said.split("|")[0] in ("ticks", "number")))
            pattern += f"(?P<{field}>{kind.pattern})"
        else:
            parts.append(Part(literal, None, _KINDS["rest"], option, False))
            pattern += re.escape(literal)
    return Form(tuple(parts), re.compile(pattern))
