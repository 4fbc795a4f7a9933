"""The pages of this package: their lines work."""

import os
import re
import subprocess
import sys
from pathlib import Path

from conftest import TOP

import chainlat
import chainlat.plots

PAGE = (TOP / "docs" / "python.md").read_text()
MANY = (TOP / "docs" / "many.md").read_text()


def blocks(text: str) -> list[str]:
    """The blocks of Python of a page."""
    return re.findall(r"^```python\n(.*?)^```", text, re.S | re.M)


def test_the_three_lines_at_the_beginning_work(program: str) -> None:
    lines = blocks(PAGE)[0]
    assert len(lines.splitlines()) == 3
    environment = {**os.environ, "PYTHONPATH": str(TOP / "python" / "src")}
    done = subprocess.run(
        [sys.executable, "-c", lines], cwd=TOP / "crates" / "chainlat" / "data", capture_output=True, text=True,
        env=environment, check=False,
    )
    assert done.returncode == 0, done.stderr
    answer = "".join(line[4:] for line in PAGE.splitlines(True)[5:30] if re.match("    (chainlat|sum|task)", line))
    assert done.stdout.startswith(answer)


def test_each_name_of_the_package_is_there() -> None:
    for text in (PAGE, MANY):
        for block in blocks(text):
            for name in re.findall(r"\bchainlat\.(\w+)", block):
                assert hasattr(chainlat, name) or name == "plots", name


def test_the_statements_about_the_engine_hold(program: str, tmp_path: Path) -> None:
    engine = TOP / "examples" / "engine" / "engine.toml"
    found = chainlat.verify(engine)
    assert not found.is_met
    assert [it.name for it in found.verdicts if it.verdict != "met"] == ["Monitor", "watchdog"]
    window = chainlat.why(engine, "response", "Monitor").window
    assert window is not None and window.over == 600
    model = chainlat.Model.load(engine)
    model.task("Monitor").core = "Comms"
    model.task("Monitor").priority = 2
    model.add_requirement("fast", "request_to_fuel", "age", 90000)
    model.apply("chainlat edits 2\ndistances half_turn 5000 15000\n")
    model.save(tmp_path / "mended.toml")
    assert chainlat.verify(tmp_path / "mended.toml").is_met
