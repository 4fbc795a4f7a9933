"""`json COMMAND ..`: the answer of a command as JSON."""

from __future__ import annotations

from collections.abc import Callable
from typing import Any

import click

import chainlat

from .output import output_option, source, write

#: Each command, and which of its arguments are files; numbers are the others that are whole numbers.
FILES: dict[str, tuple[Callable[..., Any], str]] = {
    "analyse": (chainlat.analyse, "f"),
    "tighten": (chainlat.tighten, "f"),
    "verify": (chainlat.verify, "f"),
    "explain": (chainlat.explain, "f"),
    "why": (chainlat.why, "fww"),
    "margin": (chainlat.margin, "f"),
    "headroom": (chainlat.headroom, "f"),
    "order": (chainlat.order, "f"),
    "cut": (chainlat.cut, "f"),
    "check": (chainlat.check, "f?"),
    "observe": (chainlat.observe, "ff"),
    "replay": (chainlat.replay, "ff"),
    "witness": (chainlat.witness, "fww"),
    "simulate": (chainlat.simulate, "fnn"),
    "draw": (chainlat.draw, "ffnn"),
    "edit": (chainlat.edit, "ff"),
    "apply": (chainlat.apply, "ff"),
    "migrate": (chainlat.migrate, "f"),
}


@click.command("json", context_settings={"ignore_unknown_options": True})
@output_option()
@click.argument("command", type=click.Choice(sorted(FILES)))
@click.argument("arguments", nargs=-1, metavar="ARGUMENTS..")
def json_command(command: str, arguments: tuple[str, ...], output: str | None) -> None:
    """Writes the answer of COMMAND as JSON. ARGUMENTS are those of the program `chainlat`.

    The status is 0 where there is an answer; of `verify` it is 13 where something isn't met, and of `check` that of the
    refusal.
    """
    function, shape = FILES[command]
    least = len(shape.replace("?", ""))
    if not least <= len(arguments) <= len(shape):
        raise click.UsageError(f"{command} takes {least} arguments, found {len(arguments)}")
    answer = function(*(_argument(it, kind) for it, kind in zip(arguments, shape, strict=False)))
    write(answer.to_json(), output)
    if isinstance(answer, chainlat.Verification) and not answer.is_met:
        raise click.exceptions.Exit(13)
    if isinstance(answer, chainlat.Check) and answer.refusal is not None:
        raise click.exceptions.Exit(answer.refusal.STATUS)


def _argument(text: str, kind: str) -> Any:
    if kind in "f?":
        return source(text)
    if kind == "n":
        if not text.isdecimal():
            raise click.UsageError(f"wanted a whole number, found {text!r}")
        return int(text)
    return text
