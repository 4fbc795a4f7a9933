"""`generate SEED TASKS`: a model that a seed draws."""

from __future__ import annotations

from ..model import Model
from ..program import Program, the


def generate(seed: int, tasks: int, *, program: Program | None = None) -> Model:
    """Asks for a model of 1 to 1,024 tasks."""
    return Model.read(the(program).ask("generate", str(seed), str(tasks)).text)
