"""Where a command writes: the standard output, or the file that `-o` names."""

from __future__ import annotations

import sys
from collections.abc import Callable
from typing import TypeVar

import click

from ..files import write_over

Decorated = TypeVar("Decorated", bound=Callable[..., object])

STDIN = "/dev/stdin"


def output_option(required: bool = False) -> Callable[[Decorated], Decorated]:
    """The option `-o FILE`."""
    return click.option(
        "-o", "--output", metavar="FILE", required=required,
        help="The file to write, whole or not at all; it may be there already.",
    )


def write(content: str | bytes, output: str | None) -> None:
    """Writes an answer."""
    data = content.encode("utf-8", "surrogateescape") if isinstance(content, str) else content
    if output is None:
        sys.stdout.flush()
        sys.stdout.buffer.write(data)
        sys.stdout.buffer.flush()
    else:
        write_over(output, data)


class Given:
    """What the standard input has."""

    name = "-"

    def __init__(self) -> None:
        self.content = sys.stdin.buffer.read()

    def __bytes__(self) -> bytes:
        return self.content


def source(path: str) -> str | Given:
    """The file of an argument; `-` is the standard input, which is read."""
    return Given() if path in ("-", STDIN) else path
