"""`report MODEL -o FILE`: one HTML page for people who don't run the tool."""

from __future__ import annotations

import click

from .output import output_option, source, write


@click.command("report")
@output_option(required=True)
@click.option("--title", metavar="TEXT", help="The title.  [default: the name of the file]")
@click.option("--date", metavar="TEXT", help="A date to show; without one none is shown.")
@click.argument("model", metavar="MODEL")
def report_command(model: str, title: str | None, date: str | None, output: str) -> None:
    """Writes a report of MODEL: verdicts, tasks by core, pictures of requirements, and margins.

    The page loads nothing, and the same model, title and date give the same bytes.
    """
    from ..report import report

    write(report(source(model), title=title, date=date), output)
