"""`sweep MODEL ..`: many variants of a model."""

from __future__ import annotations

import re
from pathlib import Path
from typing import Any

import click

from ..sweep import BESIDES, sweep
from .output import output_option, source, write

RANGE = re.compile(r"(\d+)\.\.(\d+)(?:/(\d+))?")


@click.command("sweep")
@output_option()
@click.option(
    "--change", "-c", "changes", multiple=True, metavar="EDIT",
    help="An edit with its values between braces: 'offset ms20 {0..19000/1000}' or 'move A {c0,c1} 3'. Several: a product.",
)
@click.option("--list", "listed", metavar="FILE", help="A file of variants, a line each, with ; between the edits of one.")
@click.option("--workers", type=click.IntRange(1), help="How many processes of this machine.  [default: one each core]")
@click.option("--scheduler", metavar="ADDRESS", help="The scheduler of a cluster of Dask, as tcp://host:8786.")
@click.option("--ask", "besides", multiple=True, type=click.Choice(BESIDES), help="What else is asked of each variant.")
@click.option("--part", metavar="K/N", help="Of N equal parts of the variants the K-th, counted from 1: for job arrays.")
@click.option("--quiet", is_flag=True, help="Show no progress bar.")
@click.argument("model", metavar="MODEL")
def sweep_command(
    model: str, changes: tuple[str, ...], listed: str | None, workers: int | None, scheduler: str | None,
    besides: tuple[str, ...], part: str | None, quiet: bool, output: str | None,
) -> None:
    """Verifies variants of MODEL and writes a table as CSV, the best first."""
    if bool(changes) == (listed is not None):
        raise click.UsageError("wanted either --change or --list")
    variants = _listed(listed) if listed is not None else _product(changes)
    if part is not None:
        variants = _part(variants, part)
    client: Any = None
    if scheduler is not None:
        from distributed import Client

        client = Client(scheduler)  # type: ignore[no-untyped-call]
    try:
        frame = sweep(source(model), variants, client=client, workers=workers, besides=besides, progress=not quiet)
    finally:
        if client is not None:
            client.close()
    write(frame.to_csv(index=False), output)


def values_of(text: str) -> list[str]:
    """The values between two braces: `0..100/5`, or words with commas between them."""
    match = RANGE.fullmatch(text)
    if match:
        first, last, step = int(match[1]), int(match[2]), int(match[3] or 1)
        if step == 0:
            raise click.UsageError(f"the step of {text} is 0")
        return [str(value) for value in range(first, last + 1, step)]
    return text.split(",")


def _product(changes: tuple[str, ...]) -> list[str]:
    """The variants of a product of edits, the last of which changes fastest."""
    variants = [""]
    for change in changes:
        edits = [""]
        for number, piece in enumerate(re.split(r"\{([^{}]*)\}", change)):
            values = values_of(piece) if number % 2 else [piece]
            edits = [edit + value for edit in edits for value in values]
        variants = [f"{one}; {edit}" if one else edit for one in variants for edit in edits]
    return variants


def _listed(path: str) -> list[str]:
    return [line for line in Path(path).read_text().splitlines() if line.strip()]


def _part(variants: list[str], part: str) -> list[str]:
    match = re.fullmatch(r"([1-9]\d*)/([1-9]\d*)", part)
    if match is None or int(match[1]) > int(match[2]):
        raise click.UsageError(f"wanted --part K/N with K at most N, found {part}")
    at, count = int(match[1]), int(match[2])
    return variants[len(variants) * (at - 1) // count:len(variants) * at // count]
