"""Plots: axes of matplotlib, with which a notebook can go on. All times are in ticks."""

from __future__ import annotations

from typing import TYPE_CHECKING, Any

import chainlat

from .commands.margin import AllMargin, TaskMargin
from .program import Program
from .sources import Source

if TYPE_CHECKING:
    import pandas
    from matplotlib.axes import Axes

MET, BROKEN, UNSHOWN, FAINT = "#0072b2", "#d55e00", "#e69f00", "#9da7b1"
COLOURS = {"met": MET, "broken": BROKEN, "unshown": UNSHOWN}


def _axes(axes: Axes | None, rows: int) -> Any:
    if axes is not None:
        return axes
    from matplotlib import pyplot

    return pyplot.subplots(figsize=(8, 1.2 + 0.4 * max(rows, 1)))[1]


def _rows(axes: Any, names: list[str], label: str) -> None:
    axes.set_yticks(range(len(names)), names)
    axes.invert_yaxis()
    axes.set_xlabel(label)
    axes.set_xlim(left=0)


def plot_bounds(model: Source, *, axes: Axes | None = None, program: Program | None = None) -> Axes:
    """Of each requirement the bound as a bar, what a run showed as a dot, and the limit as a line."""
    found = chainlat.verify(model, program=program).requirements
    drawn: Any = _axes(axes, len(found))
    for row, it in enumerate(found):
        drawn.barh(row, it.bound or 0, color=COLOURS[it.verdict], height=0.6)
        drawn.plot([it.most, it.most], [row - 0.4, row + 0.4], color="black", linewidth=2)
        if it.seen is not None:
            drawn.plot(it.seen, row, "o", color="white", markeredgecolor="black")
    _rows(drawn, [f"{it.name} ({it.kind})" for it in found], "ticks; the line is the limit")
    return drawn


def plot_margin(model: Source, *, axes: Axes | None = None, program: Program | None = None) -> Axes:
    """To how many percent the times of all tasks, and of each, may grow, and what breaks first."""
    found = chainlat.margin(model, program=program)
    lines: list[tuple[str, AllMargin | TaskMargin]] = [("all", found.all), *((it.task, it) for it in found.tasks)]
    drawn: Any = _axes(axes, len(lines))
    for row, (_, it) in enumerate(lines):
        drawn.barh(row, it.percent, color=MET if row else FAINT, height=0.6)
        drawn.text(it.percent, row, f" {it.percent} {it.breaks or it.what or ''}", va="center", fontsize="small")
    drawn.axvline(100, color="black", linewidth=1)
    _rows(drawn, [name for name, _ in lines], "percent of the greatest times")
    return drawn


def plot_sweep(frame: pandas.DataFrame, x: str, y: str, *, axes: Axes | None = None) -> Axes:
    """Two columns of a sweep against each other; variants with something unmet are crosses. Refused ones are left out."""
    known = frame[frame["refused"].isna()].astype({x: float, y: float}, errors="ignore")
    drawn: Any = _axes(axes, 6)
    for unmet, mark, colour in ((False, "o", MET), (True, "x", BROKEN)):
        part = known[(known["unmet"] > 0) == unmet]
        drawn.plot(part[x], part[y], mark, color=colour, label="something unmet" if unmet else "all met")
    drawn.set_xlabel(x)
    drawn.set_ylabel(y)
    drawn.legend()
    return drawn


def plot_responses(observation: chainlat.Observation, *, axes: Axes | None = None) -> Axes:
    """Of each task of a recording the greatest response as a bar, and its bound as a line."""
    found = [task.response for task in observation.tasks]
    drawn: Any = _axes(axes, len(found))
    for row, it in enumerate(found):
        drawn.barh(row, it.response or 0, color=BROKEN if it.above or it.misses else MET, height=0.6)
        if it.bound is not None:
            drawn.plot([it.bound, it.bound], [row - 0.4, row + 0.4], color="black", linewidth=2)
    _rows(drawn, [it.name for it in found], "ticks; the line is the bound")
    return drawn
