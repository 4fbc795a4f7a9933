"""`compare OLD NEW`: what changed between two models, in words."""

from __future__ import annotations

from collections.abc import Iterator

import click

import chainlat

from ..commands.tighten import TightBounds
from ..commands.verify import RequirementVerdict, Verdict
from .output import output_option, source, write

LENGTHS = ("reaction", "age", "reduced", "delay")


@click.command("compare")
@output_option()
@click.argument("old", metavar="OLD")
@click.argument("new", metavar="NEW")
def compare_command(old: str, new: str, output: str | None) -> None:
    """Says what changed from the model OLD to the model NEW: verdicts, and bounds with their differences in ticks.

    The status is 13 where NEW has something that isn't met.
    """
    before, after = source(old), source(new)
    found = chainlat.verify(after)
    lines = [
        *changed_verdicts(chainlat.verify(before), found),
        *changed_bounds(chainlat.tighten(before), chainlat.tighten(after)),
    ]
    write("".join(f"{line}\n" for line in lines or ["nothing changed"]), output)
    if not found.is_met:
        raise click.exceptions.Exit(13)


def difference(old: int | None, new: int | None) -> str:
    """How a number changed, in words; None is said as `none`."""
    if old is None or new is None:
        return f"from {'none' if old is None else old} to {'none' if new is None else new}"
    return f"from {old} to {new}, {abs(new - old)} {'more' if new > old else 'less'}"


def told(verdict: Verdict) -> tuple[str, str]:
    """What a verdict is of."""
    return ("requirement" if isinstance(verdict, RequirementVerdict) else "task", verdict.name)


def changed_verdicts(old: chainlat.Verification, new: chainlat.Verification) -> Iterator[str]:
    """What changed of tasks and requirements."""
    before, after = {told(it): it for it in old.verdicts}, {told(it): it for it in new.verdicts}
    for what, name in [*before, *(it for it in after if it not in before)]:
        one, other = before.get((what, name)), after.get((what, name))
        if one is None and other is not None:
            yield f"{what} {name} is new: {other.verdict}"
        elif other is None:
            yield f"{what} {name} is gone"
        elif one is not None:
            if one.verdict != other.verdict:
                yield f"{what} {name} was {one.verdict} and is {other.verdict}"
            if one.value != other.value:
                yield f"{what} {name}: its {'bound' if what == 'requirement' else 'response'} went " \
                    f"{difference(one.value, other.value)}"
            if one.limit != other.limit:
                yield f"{what} {name}: what is allowed went {difference(one.limit, other.limit)}"


def changed_bounds(old: chainlat.Tight, new: chainlat.Tight) -> Iterator[str]:
    """What changed of the bounds of chains."""
    before, after = {it.name: it for it in old.chains}, {it.name: it for it in new.chains}
    for name in [*before, *(it for it in after if it not in before)]:
        one, other = before.get(name), after.get(name)
        if one is None or other is None:
            yield f"chain {name} is {'new' if one is None else 'gone'}"
        else:
            yield from _changed_chain(one, other)


def _changed_chain(one: TightBounds, other: TightBounds) -> Iterator[str]:
    if one.late != other.late:
        if other.late is None:
            yield f"chain {one.name} has bounds now; {one.late} was late"
        else:
            yield f"chain {one.name} has no bounds: {other.late} is late"
        return
    for kind in LENGTHS:
        old, new = getattr(one, kind), getattr(other, kind)
        if old != new:
            yield f"chain {one.name}: its {kind} went {difference(old, new)}"
