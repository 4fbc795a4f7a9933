"""Traces: runs as text, read and written."""

from __future__ import annotations

from collections.abc import Iterator
from dataclasses import dataclass
from typing import ClassVar, Self

from .answer import Answer
from .lines import Line, Lines
from .sources import Source, content_of


@dataclass(frozen=True)
class Ticks(Line):
    """How many ticks the run lasts."""

    ticks: int
    FORMS = ("ticks {ticks:ticks}",)


@dataclass(frozen=True)
class JobLine(Line):
    """A job: when it arrives and is released, and its time of each runnable of its task, in ticks."""

    task: str
    arrival: int
    release: int
    times: tuple[int, ...]
    FORMS = ("job {task} {arrival:ticks} {release:ticks} {times:numbers}",)


@dataclass(frozen=True)
class Stretch(Line):
    """A task runs on its core from the tick `start` up to the tick before `end`."""

    task: str
    start: int
    end: int
    FORMS = ("run {task} {start:ticks} {end:ticks}",)


@dataclass(frozen=True)
class Trace(Answer):
    """A run: how many ticks it lasts, its jobs task by task, and its stretches core by core."""

    ticks: int
    jobs: tuple[JobLine, ...]
    runs: tuple[Stretch, ...]
    TITLE: ClassVar[str] = "chainlat trace 1"
    COMMAND: ClassVar[str] = "trace"

    @classmethod
    def take(cls, lines: Lines) -> Self:
        lines.literal(cls.TITLE)
        trace = cls(lines.one(Ticks).ticks, lines.many(JobLine), lines.many(Stretch))
        lines.literal("end")
        return trace

    @classmethod
    def load(cls, source: Source) -> Self:
        """Reads a trace from a path, a text or bytes. Raises `UnknownLine` at the first line that is none of a trace.

        That a line fits a model (its tasks, its cores, its order) says the program alone, by `check`.
        """
        return cls.read(content_of(source).decode("utf-8", "surrogateescape"))

    def lines(self) -> Iterator[Line | str]:
        yield Ticks(self.ticks)
        yield from self.jobs
        yield from self.runs
        yield "end"

    def __bytes__(self) -> bytes:
        return str(self).encode("utf-8", "surrogateescape")
