"""Events of a tracer, and the trace that they make."""

from __future__ import annotations

from collections.abc import Iterable, Mapping
from dataclasses import dataclass
from typing import Self

from .errors import ModelError
from .model import Model
from .trace import JobLine, Stretch, Trace

#: The columns of a table of events, and what each says.
COLUMNS = {
    "task": "The column of the task.",
    "arrival": "The column of the tick at which the job arrives.",
    "release": "The column of the tick at which the job is released.",
    "runnable": "The column of the runnable that runs.",
    "start": "The column of the tick from which it runs.",
    "end": "The column of the tick at which it stops.",
    "core": "The column of the core.",
}
NUMBERS = ("arrival", "release", "start", "end")


@dataclass(frozen=True)
class Event:
    """A runnable of a job ran on a core from the tick `start` up to the tick before `end`; `place` is its line."""

    task: str
    arrival: int
    release: int
    runnable: str
    start: int
    end: int
    core: str
    place: str

    @classmethod
    def of(cls, row: Mapping[str, str | None], line: int, path: str) -> Self:
        """The event of a row. Raises `ModelError` with its line where a value is missing or no whole number."""
        place = f"{path}:{line}"
        values: dict[str, str] = {}
        for name in COLUMNS:
            value = (row.get(name) or "").strip()
            if not value:
                raise ModelError(f"{place}: {name} is missing")
            if name in NUMBERS and not value.isdecimal():
                raise ModelError(f"{place}: {name} is {value}, wanted a whole number of ticks")
            values[name] = value
        event = cls(
            values["task"], int(values["arrival"]), int(values["release"]), values["runnable"], int(values["start"]),
            int(values["end"]), values["core"], place,
        )
        if event.end <= event.start:
            raise ModelError(f"{place}: the end {event.end} isn't after the start {event.start}")
        return event


def trace_of(model: Model, events: Iterable[Event], ticks: int | None, gap: int, path: str) -> Trace:
    """The trace of events, for the tasks, runnables and cores of a model.

    Stretches of one job that are at most `gap` ticks apart, with no other task between them, are joined, and the ticks
    between them count to the runnable before. Those of two jobs are joined where nothing lies between them. Raises `ModelError` with the line of an event that doesn't fit.
    """
    tasks = {task.name: task for task in model.tasks}
    runnables = {task.name: [it.name for it in task.runnables] for task in model.tasks}
    jobs: dict[str, dict[int, tuple[int, list[int]]]] = {name: {} for name in tasks}
    stretches: dict[str, list[Stretch]] = {core.name: [] for core in model.cores}
    last: dict[str, tuple[Event, list[int], int]] = {}
    for event in events:
        if event.task not in tasks:
            raise ModelError(f"{event.place}: unknown task {event.task}: known are {' '.join(tasks)}")
        if event.core != tasks[event.task].core:
            raise ModelError(f"{event.place}: {event.task} runs on {tasks[event.task].core}, not on {event.core}")
        if event.runnable not in runnables[event.task]:
            raise ModelError(
                f"{event.place}: {event.task} has no runnable {event.runnable}: known are "
                f"{' '.join(runnables[event.task])}"
            )
        at = runnables[event.task].index(event.runnable)
        release, times = jobs[event.task].setdefault(event.arrival, (event.release, [0] * len(runnables[event.task])))
        if release != event.release:
            raise ModelError(f"{event.place}: this job was released at {release} in a line above, and at {event.release}")
        here = stretches[event.core]
        if here and event.start < here[-1].end:
            raise ModelError(
                f"{event.place}: it starts at {event.start}, and {here[-1].task} ran on {event.core} up to {here[-1].end}"
            )
        times[at] += event.end - event.start
        before = last.get(event.core)
        allowed = gap if before is not None and before[0].arrival == event.arrival else 0
        if before is not None and before[0].task == event.task and event.start - here[-1].end <= allowed:
            _, counted, place = before
            counted[place] += event.start - here[-1].end
            here[-1] = Stretch(event.task, here[-1].start, event.end)
        else:
            here.append(Stretch(event.task, event.start, event.end))
        last[event.core] = (event, times, at)
    runs = tuple(stretch for core in model.cores for stretch in stretches[core.name])
    lasts = max((stretch.end for stretch in runs), default=0)
    if ticks is not None and ticks < lasts:
        raise ModelError(f"{path}: an event ends at {lasts}, after the {ticks} ticks of the recording")
    lines = tuple(line for name, those in jobs.items() for line in _jobs(name, those, runnables[name], path))
    return Trace(lasts if ticks is None else ticks, lines, runs)


def _jobs(task: str, jobs: Mapping[int, tuple[int, list[int]]], runnables: list[str], path: str) -> Iterable[JobLine]:
    """The job lines of a task. What its last job hasn't run when the recording ends is written as a tick."""
    for number, (arrival, (release, times)) in enumerate(sorted(jobs.items()), 1):
        missing = [name for name, time in zip(runnables, times, strict=True) if not time]
        if missing and number < len(jobs):
            raise ModelError(f"{path}: the job of {task} that arrives at {arrival} has no event of {', '.join(missing)}")
        yield JobLine(task, arrival, release, tuple(time or 1 for time in times))
