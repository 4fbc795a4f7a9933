"""`migrate MODEL`: the same model in one layout."""

from __future__ import annotations

from ..model import Model
from ..program import Program, the
from ..sources import Source, file_of


def migrate(model: Source, *, program: Program | None = None) -> Model:
    """Asks for the same model as a file of version 2 or 3, without comments. Raises `ModelRefused` where it is."""
    return Model.read(the(program).ask("migrate", file_of(model)).text)
