"""What all tests use: the folders of the repository, and the program."""

import os
import shutil
from pathlib import Path

import pytest

TOP = Path(__file__).resolve().parents[2]
ROWS = TOP / "crates" / "rows" / "data"
BUILT = TOP / "crates" / "chainlat" / "out" / "chainlat"

if "CHAINLAT" not in os.environ and BUILT.exists():
    os.environ["CHAINLAT"] = str(BUILT)


@pytest.fixture(scope="session")
def program() -> str:
    """The executable. Tests that ask it are skipped where there is none."""
    found = shutil.which(os.environ.get("CHAINLAT", "chainlat"))
    if found is None:
        pytest.skip("there is no executable chainlat: build it, or name it by the environment variable CHAINLAT")
    return found
