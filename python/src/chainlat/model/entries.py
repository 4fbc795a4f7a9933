"""The entries of a model: views of the tables of its document. All times are in ticks."""

from __future__ import annotations

from collections.abc import MutableMapping
from typing import Any, ClassVar

import tomlkit

from ..errors import ModelError
from .keys import MOST_REQUIRED, MOST_TICKS, Key, flag, name, names, number, word

ACCESS = ("explicit", "implicit", "timed")
LENGTHS = ("reaction", "age", "reduced", "delay")
STIMULI = ("periodic", "sporadic", "burst")


class Entry:
    """A table of a model file. What is set is checked as the format says, and stands in the document at once."""

    SECTION: ClassVar[str] = ""
    name = Key[str](name)

    def __init__(self, table: MutableMapping[str, Any]) -> None:
        self.table = table

    @property
    def told(self) -> str:
        """How messages call the entry."""
        return f"{self.SECTION} {self.table.get('name', '-')}"

    def put(self, key: str, value: Any) -> None:
        """Sets a key. A new one stands before the tables below."""
        if key in self.table or not isinstance(self.table, tomlkit.items.Table):
            self.table[key] = value
        else:
            _insert(self.table, key, value)

    def remove(self, key: str) -> None:
        """Takes a key out, with the comment behind it."""
        if key in self.table:
            del self.table[key]

    def __repr__(self) -> str:
        return f"<{self.told}>"


def _insert(table: tomlkit.items.Table, key: str, value: Any) -> None:
    """Puts a new key behind the last key of a table that isn't a table itself, before blank lines and comments."""
    body = table.value.body
    places = [
        place
        for place, (known, item) in enumerate(body)
        if known is not None and not isinstance(item, tomlkit.items.Table | tomlkit.items.AoT)
    ]
    item = tomlkit.item(value)
    if not places or places[-1] + 1 >= len(body):
        table[key] = item
        return
    before = body[places[-1]][1]
    item.trivia.indent = before.trivia.indent
    if not before.trivia.trail.endswith("\n"):
        before.trivia.trail += "\n"
    table.value._insert_at(places[-1] + 1, tomlkit.items.SingleKey(key), item)
    dict.__setitem__(table, key, item)


class Core(Entry):
    """A core, which runs at most one task at a time."""

    SECTION = "core"


class Label(Entry):
    """A variable that one runnable writes and others read."""

    SECTION = "label"


class Stimulus(Entry):
    """When jobs of a task arrive. Which numbers there are depends on the kind."""

    SECTION = "stimulus"
    kind = Key[str](word(*STIMULI))
    period = Key[int | None](number(1, MOST_TICKS), optional=True)
    offset = Key[int](number(0, MOST_TICKS), 0)
    jitter = Key[int](number(0, MOST_TICKS), 0)
    least = Key[int | None](number(1, MOST_TICKS), optional=True)
    greatest = Key[int | None](number(1, MOST_TICKS), optional=True)
    count = Key[int | None](number(2, 1_000_000), optional=True)
    distance = Key[int | None](number(1, MOST_TICKS), optional=True)


class Runnable(Entry):
    """What a job executes: from `least` to `greatest` ticks, to its end without a break if it is `whole`."""

    SECTION = "runnable"
    least = Key[int](number(1, MOST_TICKS))
    greatest = Key[int](number(1, MOST_TICKS))
    whole = Key[bool](flag, False)
    reads = Key[tuple[str, ...]](names, ())
    writes = Key[tuple[str, ...]](names, ())


class Task(Entry):
    """A task on its core. A greater `priority` is a higher one; `deadline` counts from the arrival (None: default)."""

    SECTION = "task"
    core = Key[str](name)
    stimulus = Key[str](name)
    priority = Key[int](number(0, 1_000_000))
    access = Key[str](word(*ACCESS))
    deadline = Key[int | None](number(1, MOST_TICKS), optional=True)

    @property
    def runnables(self) -> tuple[Runnable, ...]:
        """The runnables, in the order of execution."""
        return tuple(Runnable(table) for table in self.table.get("runnable", ()))

    def runnable(self, name: str) -> Runnable:
        """The runnable of a name. Raises `ModelError` where the task has none."""
        found: Runnable = one_of(self.runnables, name, "runnable")
        return found


class Chain(Entry):
    """The path of a datum: runnables, and between each two of them the label."""

    SECTION = "chain"
    runnables = Key[tuple[str, ...]](names, ())
    labels = Key[tuple[str, ...]](names, ())


class Requirement(Entry):
    """A length of a chain, or its delay, is at most `most` ticks."""

    SECTION = "requirement"
    chain = Key[str](name)
    kind = Key[str](word(*LENGTHS))
    most = Key[int](number(0, MOST_REQUIRED))


def one_of(entries: tuple[Any, ...], name: str, what: str) -> Any:
    """The entry of a name."""
    for entry in entries:
        if entry.table.get("name") == name:
            return entry
    known = " ".join(str(entry.table.get("name")) for entry in entries) or "none"
    raise ModelError(f"unknown {what} {name}: known are {known}")
