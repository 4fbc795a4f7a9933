"""The page of a report."""

from __future__ import annotations

from importlib.resources import files
from pathlib import PurePath

import chainlat

from ..program import Program, the
from ..sources import Source, content_of, file_of
from .parts import cores_of, row_of, source_of, story_of


def report(model: Source, *, title: str | None = None, date: str | None = None, program: Program | None = None) -> str:
    """The report of a model: an HTML page without scripts that loads nothing.

    It is a function of the model, the title, the date and the program: nothing else of the moment or the machine is in
    it. Raises `Refused` where the model is.
    """
    from jinja2 import Environment, StrictUndefined

    asked, name = the(program), file_of(model).name
    found = chainlat.verify(model, program=asked)
    document = chainlat.migrate(model, program=asked)
    margin = chainlat.margin(document, program=asked)
    folder = files("chainlat.report")
    environment = Environment(autoescape=True, undefined=StrictUndefined, trim_blocks=True, lstrip_blocks=True)
    return environment.from_string((folder / "page.html").read_text("utf-8")).render(
        title=title or PurePath(name or "model").stem,
        style=(folder / "page.css").read_text("utf-8"),
        sum=found.sum,
        is_met=found.is_met,
        requirements=[row_of(it) for it in found.requirements],
        cores=list(cores_of(document, found, asked)),
        stories=[story_of(document, it, asked) for it in found.requirements],
        margin=margin,
        source=source_of(name, content_of(model), date, asked),
    ) + "\n"
