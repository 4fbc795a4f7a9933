"""The lines that stand where an answer would: refusals, each with its status."""

from __future__ import annotations

from dataclasses import dataclass
from typing import ClassVar

from .lines import Line


@dataclass(frozen=True)
class Refusal(Line):
    """A line that refuses a command. `STATUS` is the exit status behind it."""

    STATUS: ClassVar[int] = 0


@dataclass(frozen=True)
class WordsLine(Refusal):
    """The words aren't a command and its arguments."""

    STATUS = 2
    FORMS = ("words refused",)


@dataclass(frozen=True)
class FaultLine(Refusal):
    """File number `file` of the command couldn't be read; 1 is the model."""

    file: int
    STATUS = 3
    FORMS = ("read fault {file:ticks}",)


@dataclass(frozen=True)
class LongLine(Refusal):
    """File number `file` of the command has more bytes than its limit."""

    file: int
    STATUS = 4
    FORMS = ("long file {file:ticks}",)


@dataclass(frozen=True)
class ModelLine(Refusal):
    """The model file is refused by the rule `code` at `place`, such as `task[1].core`."""

    code: str
    place: str
    STATUS = 5
    FORMS = ("model refused {code} {place:rest}",)


@dataclass(frozen=True)
class TraceLine(Refusal):
    """Line `line` of the trace, counted from 1, is its first bad one."""

    line: int
    STATUS = 6
    FORMS = ("trace refused line {line:ticks}",)


@dataclass(frozen=True)
class IllegalLine(Refusal):
    """The run of the trace breaks a rule: of a task at the tick of an arrival, or of a core at a tick."""

    rule: str
    tick: int
    task: str | None = None
    core: str | None = None
    STATUS = 6
    FORMS = (
        "trace illegal {rule:arrival|release|time|missing} task {task} tick {tick:ticks}",
        "trace illegal {rule:schedule} core {core} tick {tick:ticks}",
    )


@dataclass(frozen=True)
class EditsLine(Refusal):
    """Line `line` of a list of edits, counted from 1, is refused by the rule `code` at `place`."""

    line: int
    code: str
    place: str
    STATUS = 7
    FORMS = ("edits refused line {line:ticks} {code} {place:rest}",)


@dataclass(frozen=True)
class SimulationLine(Refusal):
    """A run has `count` executions of runnables, and `most` are the limit."""

    count: int
    most: int
    STATUS = 8
    FORMS = ("simulation refused {count:ticks} of {most:ticks}",)


@dataclass(frozen=True)
class WindowLine(Refusal):
    """The window from the tick `start` to the tick `end` isn't within a run of `ticks` ticks."""

    start: int
    end: int
    ticks: int
    STATUS = 14
    FORMS = ("window refused {start:ticks} {end:ticks} of {ticks:ticks}",)


@dataclass(frozen=True)
class UnknownNameLine(Refusal):
    """The model has no task, chain or requirement of this name."""

    what: str
    name: str
    STATUS = 15
    FORMS = ("unknown {what:task|chain|requirement} {name}",)


@dataclass(frozen=True)
class RunLine(Refusal):
    """A run would have `ticks` ticks, and `most` are the limit."""

    ticks: int
    most: int
    STATUS = 16
    FORMS = ("run refused {ticks:ticks} ticks of {most:ticks}",)


ALL: tuple[type[Refusal], ...] = (
    WordsLine, FaultLine, LongLine, ModelLine, TraceLine, IllegalLine, EditsLine, SimulationLine, WindowLine,
    UnknownNameLine, RunLine,
)


def refusal_of(status: int, line: str) -> Refusal | None:
    """The refusal that a line is, if it is one of this status."""
    for kind in ALL:
        if kind.STATUS == status and (found := kind.parse(line)) is not None:
            return found
    return None
