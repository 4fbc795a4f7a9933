"""`witness MODEL WHAT NAME`: a run that comes near to a bound."""

from __future__ import annotations

from ..program import Program, the
from ..sources import Source, file_of
from ..trace import Trace


def witness(model: Source, what: str, name: str, *, program: Program | None = None) -> Trace:
    """Asks for a run near to a bound. `what` and `name` are those of `why`.

    Raises `NameUnknown` where the model has nothing of the name, and `RunRefused` or `SimulationRefused` where the run
    would be too long.
    """
    return Trace.read(the(program).ask("witness", file_of(model), what, name).text)
