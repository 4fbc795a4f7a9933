"""`simulate MODEL TICKS SEED`: a run that a seed draws."""

from __future__ import annotations

from ..program import Program, the
from ..sources import Source, file_of
from ..trace import Trace


def simulate(model: Source, ticks: int, seed: int, *, program: Program | None = None) -> Trace:
    """Asks for a run of the first `ticks` ticks. Raises `SimulationRefused` where it has too many executions."""
    return Trace.read(the(program).ask("simulate", file_of(model), str(ticks), str(seed)).text)
