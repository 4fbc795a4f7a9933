"""`apply MODEL EDITS`: the model after all edits, as the program writes it."""

from __future__ import annotations

from ..model import Model
from ..program import Program, the
from ..sources import Source, file_of


def apply(model: Source, edits: Source, *, program: Program | None = None) -> Model:
    """Asks for the model after a list of edits, without comments. `Model.apply` makes them with comments kept."""
    return Model.read(the(program).ask("apply", file_of(model), file_of(edits)).text)
