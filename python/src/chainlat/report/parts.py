"""The parts of a report: what the page shows, asked of the program."""

from __future__ import annotations

import hashlib
import re
from collections.abc import Iterator
from dataclasses import dataclass

import chainlat

from ..commands.verify import RequirementVerdict, TaskVerdict, Verdict, room_of
from ..model import Model
from .words import hops, ticks, walk

#: How many ticks more than the walk a picture shows on either side: a part of its length.
AROUND = 10


@dataclass(frozen=True)
class Bar:
    """A value beside its limit, as a drawing: both in percent of its width."""

    label: str
    value: float
    limit: float
    verdict: str


@dataclass(frozen=True)
class Row:
    """A verdict as the page shows it."""

    what: str
    name: str
    value: str
    limit: str
    room: str
    verdict: str
    more: str
    bar: Bar


@dataclass(frozen=True)
class CoreRows:
    """A core: its load in percent, and its tasks."""

    name: str
    load: float
    rows: tuple[Row, ...]


@dataclass(frozen=True)
class Story:
    """A requirement: its verdict, its picture or why there is none, and its walk in words."""

    row: Row
    anchor: str
    picture: str | None
    alternative: str
    no_picture: str
    walk: tuple[str, ...]
    lines: str


@dataclass(frozen=True)
class Source:
    """What was analysed."""

    file: str
    digest: str
    version: str
    date: str | None
    notes: tuple[str, ...]


def row_of(verdict: Verdict) -> Row:
    """The row of a verdict."""
    of_chain = isinstance(verdict, RequirementVerdict)
    what = f"{verdict.kind} of {verdict.chain}" if isinstance(verdict, RequirementVerdict) else "response"
    room, more = room_of(verdict), []
    if verdict.seen is not None:
        more.append(f"a run shows {ticks(verdict.seen)}")
    if isinstance(verdict, RequirementVerdict) and verdict.by is not None:
        more.append(f"its task {verdict.by} is late")
    value = "none" if verdict.value is None else ticks(verdict.value)
    label = f"{'requirement' if of_chain else 'task'} {verdict.name}: {value} of {ticks(verdict.limit)}"
    return Row(
        what, verdict.name, value, ticks(verdict.limit), "none" if room is None else ticks(room),
        verdict.verdict, ", ".join(more), bar_of(verdict, label),
    )


def bar_of(verdict: Verdict, label: str) -> Bar:
    """The bar of a verdict. Its width is the greater of value and limit; without a value it is the limit alone."""
    shown = verdict.value if verdict.value is not None else verdict.seen or 0
    whole = max(shown, verdict.limit, 1)
    return Bar(label, round(100 * shown / whole, 2), round(100 * verdict.limit / whole, 2), verdict.verdict)


def cores_of(model: Model, found: chainlat.Verification, program: chainlat.Program) -> Iterator[CoreRows]:
    """The tasks by core, with the loads that `explain` says."""
    verdicts: dict[str, TaskVerdict] = {it.name: it for it in found.tasks}
    for load in chainlat.explain(model, program=program).cores:
        rows = tuple(row_of(verdicts[task.name]) for task in model.tasks if task.core == load.core)
        yield CoreRows(load.core, round(100 * load.load / load.of, 1), rows)


def story_of(model: Model, verdict: RequirementVerdict, program: chainlat.Program) -> Story:
    """The story of a requirement."""
    reason = chainlat.why(model, "requirement", verdict.name, program=program)
    picture, why_not = None, ""
    try:
        picture = _picture(model, verdict, reason, program)
    except (chainlat.RunRefused, chainlat.SimulationRefused) as refused:
        why_not = f"The run that comes near to it is too long to be drawn: {refused.line}."
    return Story(
        row_of(verdict), f"requirement-{verdict.name}", scoped(picture.svg, f"p-{verdict.name}") if picture else None,
        _alternative(verdict, picture), why_not, (*walk(reason), *hops(reason)), str(reason),
    )


def _alternative(verdict: RequirementVerdict, picture: chainlat.Picture | None) -> str:
    """What a picture shows, in words."""
    if picture is None:
        return ""
    run = f"made for its late task {verdict.by}" if verdict.by else f"that comes near to {verdict.name}"
    return (
        f"Ticks {ticks(picture.start)} to {ticks(picture.end)} of the run {run}: a row for each task, and the longest "
        "reaction of each chain as a line, where it lies between these ticks."
    )


def _picture(
    model: Model, verdict: RequirementVerdict, reason: chainlat.Reason, program: chainlat.Program
) -> chainlat.Picture:
    """The picture of the run near to a requirement, around the walk or the window."""
    run = chainlat.witness(model, "requirement", verdict.name, program=program)
    about = reason.length or reason.window
    start, end = (0, run.ticks) if about is None else (about.start, about.end)
    around = max((end - start) // AROUND, 1)
    start, end = max(start - around, 0), min(end + around, run.ticks)
    if start >= end:
        start, end = 0, run.ticks
    return chainlat.draw(model, run, start, end, program=program)


def scoped(svg: str, name: str) -> str:
    """A picture for a page with others: its rules hold within it alone, and its names are its own."""
    own = svg.replace(' id="', f' id="{name}-')
    marked = re.sub(r"^<svg ", f'<svg id="{name}" ', own, count=1)
    selector = f"#{re.sub(r'([^A-Za-z0-9_-])', _escaped, name)}"

    def style(match: re.Match[str]) -> str:
        return f"<style>\n{scope(match[1], selector)}</style>"

    return re.sub(r"<style>\n(.*?)</style>", style, marked, count=1, flags=re.S)


def _escaped(match: re.Match[str]) -> str:
    return f"\\{match[1]}"


def scope(rules: str, selector: str) -> str:
    """The rules of a style, each with a selector before it."""

    def one(match: re.Match[str]) -> str:
        names = match[1]
        if names.startswith("@"):
            return match[0]
        each = [
            name.replace("svg", selector, 1) if name.startswith("svg") else f"{selector} {name}"
            for name in re.split(r",(?![^()]*\))", names)
        ]
        return f"{','.join(each)}{{"

    return re.sub(r"([^{}\n]+)\{", one, rules)


def source_of(name: str | None, content: bytes, date: str | None, program: chainlat.Program) -> Source:
    """What was analysed: the file, its digest, the version of the program, the date that was handed in, and notes."""
    notes = tuple(str(line) for line in chainlat.check(content, program=program).notes)
    version = program.run("version").text.strip()
    return Source(name or "a model without a file", hashlib.sha256(content).hexdigest(), version, date, notes)
