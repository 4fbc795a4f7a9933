"""`check MODEL [FILE]`: what to mend in a file that is refused, or what to know of a model that is accepted."""

from __future__ import annotations

from collections.abc import Iterator
from dataclasses import dataclass
from typing import ClassVar, Self

from ..answer import Answer
from ..lines import Line, Lines
from ..program import Program, the
from ..refusals import EditsLine, IllegalLine, ModelLine, Refusal, TraceLine
from ..sources import Source, file_of

STATUSES = (0, 5, 6, 7)


@dataclass(frozen=True)
class At(Line):
    """Where in the file: line and column, counted from 1, the column in characters."""

    row: int
    column: int
    FORMS = ("at {row:ticks} {column:ticks}",)


@dataclass(frozen=True)
class Entry(Line):
    """The entry that the place lies in: its section, its name (`-`: it has none) and its number, counted from 1."""

    section: str
    name: str
    number: int
    FORMS = ("entry {section} {name} {number:ticks}",)


@dataclass(frozen=True)
class RunnableEntry(Line):
    """The runnable that the place lies in, and its number in its task, counted from 1."""

    name: str
    number: int
    FORMS = ("runnable {name} {number:ticks}",)


@dataclass(frozen=True)
class Key(Line):
    """The key of the place."""

    key: str
    FORMS = ("key {key:rest}",)


@dataclass(frozen=True)
class Found(Line):
    """What stands there."""

    text: str
    FORMS = ("found {text:rest}",)


@dataclass(frozen=True)
class Wanted(Line):
    """What may stand there."""

    text: str
    FORMS = ("wanted {text:rest}",)


@dataclass(frozen=True)
class Unknown(Line):
    """A name of an edit that the model doesn't have."""

    kind: str
    name: str
    FORMS = ("unknown {kind} {name}",)


@dataclass(frozen=True)
class Known(Line):
    """The names that there are; of more than 12 the first 12, and how many there are in all."""

    names: tuple[str, ...]
    total: int | None = None
    FORMS = ("known {names:names}[ .. of {total:ticks}]",)


@dataclass(frozen=True)
class With(Line):
    """What it clashes with."""

    section: str
    name: str
    FORMS = ("with {section} {name}",)


@dataclass(frozen=True)
class Mend(Line):
    """What to write instead."""

    text: str
    FORMS = ("mend {text:rest}",)


@dataclass(frozen=True)
class Message(Line):
    """What the parser says of a file that is no TOML."""

    text: str
    FORMS = ("message {text:rest}",)


@dataclass(frozen=True)
class Overloaded(Line):
    """A core whose tasks take more than all of its time."""

    core: str
    FORMS = ("overloaded {core}",)


@dataclass(frozen=True)
class LateNote(Line):
    """A task that has no response within its deadline."""

    task: str
    FORMS = ("late {task}",)


@dataclass(frozen=True)
class Apart(Line):
    """Two tasks on one sporadic stimulus: their jobs don't arrive together."""

    stimulus: str
    first: str
    second: str
    FORMS = ("apart {stimulus} {first} {second}",)


@dataclass(frozen=True)
class LongTime(Line):
    """A runnable that takes more than half of the least distance of its task, in ticks."""

    runnable: str
    greatest: int
    distance: int
    FORMS = ("time {runnable} {greatest:ticks} of {distance:ticks}",)


@dataclass(frozen=True)
class LooseLabel(Line):
    """A label that is only read (`input`), only written (`output`) or neither (`unused`)."""

    use: str
    label: str
    FORMS = ("{use:input|output|unused} {label}",)


@dataclass(frozen=True)
class Check(Answer):
    """What `check` says: of an accepted file its notes, and of a refused one the refusal and what to mend."""

    refusal: Refusal | None
    at: At | None = None
    entry: Entry | None = None
    runnable: RunnableEntry | None = None
    key: str | None = None
    found: str | None = None
    wanted: str | None = None
    unknown: Unknown | None = None
    known: Known | None = None
    clashes: tuple[With, ...] = ()
    mend: str | None = None
    message: str | None = None
    overloaded: tuple[Overloaded, ...] = ()
    late: tuple[LateNote, ...] = ()
    apart: tuple[Apart, ...] = ()
    times: tuple[LongTime, ...] = ()
    labels: tuple[LooseLabel, ...] = ()
    TITLE: ClassVar[str] = "chainlat check 2"
    COMMAND: ClassVar[str] = "check"

    @property
    def is_accepted(self) -> bool:
        """Whether the file is accepted."""
        return self.refusal is None

    @classmethod
    def take(cls, lines: Lines) -> Self:
        if lines.maybe_literal(cls.TITLE):
            lines.literal("accepted")
            return cls(
                None,
                overloaded=lines.many(Overloaded),
                late=lines.many(LateNote),
                apart=lines.many(Apart),
                times=lines.many(LongTime),
                labels=lines.many(LooseLabel),
            )
        refusal = _refusal(lines)
        found = None
        if not isinstance(refusal, ModelLine):
            found = lines.maybe(Found)
        at = lines.maybe(At)
        unknown = lines.maybe(Unknown)
        entry, runnable, key = lines.maybe(Entry), lines.maybe(RunnableEntry), lines.maybe(Key)
        found = found or (lines.maybe(Found) if isinstance(refusal, ModelLine) else None)
        wanted, known, clashes = lines.maybe(Wanted), lines.maybe(Known), lines.many(With)
        mend, message = lines.maybe(Mend), lines.maybe(Message)
        return cls(
            refusal, at, entry, runnable, key.key if key else None, found.text if found else None,
            wanted.text if wanted else None, unknown, known, clashes, mend.text if mend else None,
            message.text if message else None,
        )

    @property
    def reasons(self) -> tuple[Line, ...]:
        """The lines behind a refusal, in their order."""
        found = None if self.found is None else Found(self.found)
        of_model = isinstance(self.refusal, ModelLine)
        lines = (
            None if of_model else found,
            self.at,
            self.unknown,
            self.entry,
            self.runnable,
            None if self.key is None else Key(self.key),
            found if of_model else None,
            None if self.wanted is None else Wanted(self.wanted),
            self.known,
            *self.clashes,
            None if self.mend is None else Mend(self.mend),
            None if self.message is None else Message(self.message),
        )
        return tuple(line for line in lines if line is not None)

    @property
    def notes(self) -> tuple[Line, ...]:
        """What to know of an accepted model, in its order."""
        return (*self.overloaded, *self.late, *self.apart, *self.times, *self.labels)

    def lines(self) -> Iterator[Line | str]:
        if self.refusal is None:
            yield "accepted"
            yield from self.notes
        else:
            yield from self.reasons

    def __str__(self) -> str:
        first = self.TITLE if self.refusal is None else str(self.refusal)
        return "".join(f"{line}\n" for line in (first, *self.lines()))


def _refusal(lines: Lines) -> Refusal:
    kinds: tuple[type[Refusal], ...] = (ModelLine, EditsLine, TraceLine, IllegalLine)
    for kind in kinds:
        found = lines.maybe(kind)
        if found is not None:
            return found
    raise lines.unknown(f"wanted {Check.TITLE} or a refusal")


def check(model: Source, file: Source | None = None, *, program: Program | None = None) -> Check:
    """Asks what is wrong with a model, or with a list of edits or a trace of it. A refused file is an answer here."""
    files = (file_of(model),) if file is None else (file_of(model), file_of(file))
    return Check.read(the(program).ask("check", *files, statuses=STATUSES).text)
