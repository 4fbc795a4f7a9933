"""`from-csv TABLE`: a trace from a table of events, as tracers export it."""

from __future__ import annotations

import csv
from collections.abc import Iterable

import click

import chainlat

from ..errors import ModelError
from ..events import COLUMNS, Event, trace_of
from ..sources import content_of
from .output import Decorated, output_option, source, write


def _columns(function: Decorated) -> Decorated:
    for name, says in reversed(COLUMNS.items()):
        function = click.option(f"--{name}", default=name, show_default=True, metavar="COLUMN", help=says)(function)
    return function


@click.command("from-csv")
@output_option()
@_columns
@click.option("--ticks", type=click.IntRange(0), help="How many ticks the recording lasts.  [default: to the last event]")
@click.option("--separator", default=",", show_default=True, help="What separates the columns; \\t is a tabulator.")
@click.option("--gap", type=click.IntRange(0), default=1, show_default=True, help="Join stretches of a job that are at most so many ticks apart.")
@click.argument("model", metavar="MODEL")
@click.argument("table", metavar="TABLE")
def from_csv_command(
    model: str, table: str, ticks: int | None, separator: str, gap: int, output: str | None, **columns: str
) -> None:
    """Writes the trace of the events of TABLE, a file of CSV with a header.

    Each line says that a task ran on a core from START to END, in a job that arrived at ARRIVAL and was released at
    RELEASE, and which RUNNABLE it executed. Lines are in the order of time; those of a job have its arrival. What
    doesn't fit is an error with the line.
    """
    document = chainlat.migrate(source(model))
    given = source(table)
    text = content_of(given).decode()
    events = _events(text, columns, "\t" if separator == "\\t" else separator, table)
    write(bytes(trace_of(document, events, ticks, gap, table)), output)


def _events(text: str, columns: dict[str, str], separator: str, path: str) -> Iterable[Event]:
    if len(separator) != 1:
        raise click.UsageError(f"wanted one sign as --separator, found {separator!r}")
    reader = csv.DictReader(text.splitlines(), delimiter=separator)
    found = reader.fieldnames or []
    missing = [column for column in columns.values() if column not in found]
    if missing:
        raise ModelError(f"{path}:1: there is no column {', '.join(missing)}: the columns are {', '.join(found) or 'none'}")
    for row in reader:
        yield Event.of({name: row[column] for name, column in columns.items()}, reader.line_num, path)
