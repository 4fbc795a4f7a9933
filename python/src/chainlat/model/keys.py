"""Keys of entries: each checks the value that it is given, and says what may stand there."""

from __future__ import annotations

import re
from collections.abc import Callable, Iterable
from typing import TYPE_CHECKING, Any, Generic, Self, TypeVar, overload

from ..errors import ModelError
from ..forms import NAME

if TYPE_CHECKING:
    from .entries import Entry

Value = TypeVar("Value")
Check = Callable[[Any], Any]

#: The greatest number of ticks of a time, and of a requirement.
MOST_TICKS = 1_000_000_000_000
MOST_REQUIRED = 1_000_000_000_000_000


def name(value: Any) -> str:
    """A name: 1 to 64 letters, digits, `_`, `.` and `-`."""
    if not isinstance(value, str) or re.fullmatch(NAME, value) is None:
        raise ModelError(f"wanted a name of 1 to 64 letters, digits, _, . and -, found {value!r}")
    return str(value)


def number(least: int, greatest: int) -> Check:
    """A whole number from `least` to `greatest`."""

    def check(value: Any) -> int:
        if isinstance(value, bool) or not isinstance(value, int) or not least <= value <= greatest:
            raise ModelError(f"wanted a whole number from {least} to {greatest}, found {value!r}")
        return int(value)

    return check


def word(*words: str) -> Check:
    """One of these words."""

    def check(value: Any) -> str:
        if value not in words:
            raise ModelError(f"wanted one of {', '.join(words)}, found {value!r}")
        return str(value)

    return check


def flag(value: Any) -> bool:
    """`True` or `False`."""
    if not isinstance(value, bool):
        raise ModelError(f"wanted True or False, found {value!r}")
    return value


def names(value: Any) -> tuple[str, ...]:
    """Names, in order."""
    if isinstance(value, str) or not isinstance(value, Iterable):
        raise ModelError(f"wanted a list of names, found {value!r}")
    return tuple(name(item) for item in value)


class Key(Generic[Value]):
    """A key of an entry. Without `default` it has to be there; a key that is set to its default is left as it is.

    Setting `None` takes the key out, where it may be absent.
    """

    def __init__(self, check: Check, default: Value | None = None, optional: bool = False) -> None:
        self.check, self.default = check, default
        self.optional = optional or default is not None
        self.key = ""

    def __set_name__(self, owner: type, key: str) -> None:
        self.key = key

    @overload
    def __get__(self, entry: None, owner: type) -> Self: ...

    @overload
    def __get__(self, entry: Entry, owner: type) -> Value: ...

    def __get__(self, entry: Entry | None, owner: type) -> Self | Value:
        if entry is None:
            return self
        found = entry.table.get(self.key)
        if found is None:
            if not self.optional:
                raise ModelError(f"{entry.told}: the key {self.key} is absent")
            return self.default  # type: ignore[return-value]
        value: Value = self._checked(entry, found)
        return value

    def __set__(self, entry: Entry, value: Value) -> None:
        if value is None and self.optional:
            entry.remove(self.key)
            return
        checked = self._checked(entry, value)
        if self.optional and checked == self.default and self.key not in entry.table:
            return
        entry.put(self.key, list(checked) if isinstance(checked, tuple) else checked)

    def _checked(self, entry: Entry, value: Any) -> Any:
        try:
            return self.check(getattr(value, "unwrap", lambda: value)())
        except ModelError as error:
            raise ModelError(f"{entry.told}: {self.key}: {error}") from None
