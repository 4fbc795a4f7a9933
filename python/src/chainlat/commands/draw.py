"""`draw MODEL TRACE FROM TO`: a picture of a run."""

from __future__ import annotations

from ..picture import Picture
from ..program import Program, the
from ..sources import Source, file_of


def draw(model: Source, trace: Source, start: int, end: int, *, program: Program | None = None) -> Picture:
    """Asks for a picture of the run of a trace from the tick `start` to the tick `end`.

    Raises `WindowRefused` where that isn't within the run.
    """
    ran = the(program).ask("draw", file_of(model), file_of(trace), str(start), str(end))
    return Picture.read(ran.text)
