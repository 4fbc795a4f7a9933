"""`apply MODEL EDITS`: the edited model, with comments and layout kept."""

from __future__ import annotations

import click

from ..model import Model
from .output import output_option, source, write


@click.command("apply")
@output_option()
@click.argument("model", metavar="MODEL")
@click.argument("edits", metavar="EDITS")
def apply_command(model: str, edits: str, output: str | None) -> None:
    """Writes MODEL after the list EDITS, with its comments, order and layout kept.

    It means the same as what `chainlat apply` writes.
    """
    document = Model.load(source(model))
    document.apply(source(edits))
    write(bytes(document), output)
