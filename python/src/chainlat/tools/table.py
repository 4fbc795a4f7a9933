"""`table MODEL..`: the verdicts as a table in the terminal."""

from __future__ import annotations

import click
from rich.console import Console
from rich.table import Table

import chainlat

from ..commands.verify import RequirementVerdict, Verification, room_of
from .output import source

COLOURS = {"met": "green", "broken": "bold red", "unshown": "yellow"}


@click.command("table")
@click.option("--unmet", is_flag=True, help="Show what isn't met alone.")
@click.argument("models", nargs=-1, required=True, metavar="MODEL..")
def table_command(models: tuple[str, ...], unmet: bool) -> None:
    """Shows value, limit, room and verdict of each task and requirement of each MODEL, in ticks.

    The status is 13 where something isn't met.
    """
    console, failed = Console(), False
    for model in models:
        found = chainlat.verify(source(model))
        failed = failed or not found.is_met
        console.print(table_of(model, found, unmet))
    if failed:
        raise click.exceptions.Exit(13)


def table_of(title: str, found: Verification, unmet: bool = False) -> Table:
    """The table of a verification."""
    table = Table(title=f"{title}: met {found.sum.met}, broken {found.sum.broken}, unshown {found.sum.unshown}")
    for column in ("what", "name"):
        table.add_column(column, overflow="fold")
    for column in ("value", "limit", "room"):
        table.add_column(column, justify="right")
    table.add_column("verdict")
    for it in found.verdicts:
        if unmet and it.verdict == "met":
            continue
        what = f"{it.kind} of {it.chain}" if isinstance(it, RequirementVerdict) else "response"
        value, room = (f"{number:,}" if number is not None else "none" for number in (it.value, room_of(it)))
        more = f" seen {it.seen:,}" if it.seen is not None else ""
        more += f" by {it.by}" if isinstance(it, RequirementVerdict) and it.by else ""
        colour = COLOURS[it.verdict]
        table.add_row(what, it.name, value, f"{it.limit:,}", room, f"[{colour}]{it.verdict}[/]{more}")
    return table
