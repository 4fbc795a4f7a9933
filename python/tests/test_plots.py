"""Plots, and the notebook of the engine."""

import os
import subprocess
import sys

import pytest
from conftest import TOP

import chainlat

matplotlib = pytest.importorskip("matplotlib")
matplotlib.use("Agg")

from chainlat.plots import plot_bounds, plot_margin, plot_responses, plot_sweep  # noqa: E402

ENGINE = TOP / "examples" / "engine" / "engine.toml"


def test_a_bar_is_as_long_as_its_bound(program: str) -> None:
    axes = plot_bounds(ENGINE)
    assert [bar.get_width() for bar in axes.patches] == [70599, 8399, 104149, 0]
    assert [text.get_text() for text in axes.get_yticklabels()][0] == "driver (reaction)"
    assert list(axes.lines[0].get_xdata()) == [100000, 100000]


def test_margins_are_drawn(program: str) -> None:
    model = chainlat.Model.load(ENGINE)
    model.apply("chainlat edits 2\nmove Monitor Comms 2\n")
    widths = [bar.get_width() for bar in plot_margin(model).patches]
    assert widths[:4] == [117, 200, 150, 158]


def test_a_sweep_and_a_recording_are_drawn(program: str) -> None:
    two = TOP / "crates" / "chainlat" / "data" / "two.toml"
    frame = chainlat.sweep(two, {"offset s20 {}": [0, 3, 20]}, workers=1, besides=["tighten"], progress=False)
    axes = plot_sweep(frame, "offset s20", "ab reaction")
    assert sorted(zip(axes.lines[0].get_xdata(), axes.lines[0].get_ydata(), strict=True)) == [(0, 35), (3, 28)]
    run = chainlat.Trace.load(TOP / "crates" / "rows" / "data" / "fixed.trace")
    observed = chainlat.observe(TOP / "crates" / "rows" / "data" / "fixed.toml", run)
    assert [bar.get_width() for bar in plot_responses(observed).patches] == [3, 5]


def test_the_notebook_runs(program: str) -> None:
    script = TOP / "python" / "examples" / "engine" / "engine.py"
    environment = {**os.environ, "PYTHONPATH": str(TOP / "python" / "src")}
    done = subprocess.run([sys.executable, str(script)], capture_output=True, text=True, env=environment, check=False)
    assert done.returncode == 0, done.stderr
    assert "window Monitor arrival 20000 from 20000 to 28000 over 600" in done.stdout
