"""What `why` says, in sentences."""

from __future__ import annotations

from collections.abc import Iterator

from ..commands.why import Reason


def ticks(number: int) -> str:
    """A number of ticks, with commas."""
    return f"{number:,}"


def walk(reason: Reason) -> Iterator[str]:
    """The walk or the window of a reason, a sentence each."""
    if reason.chain is not None and reason.chain.late is not None:
        yield f"The chain has no bound, since its task {reason.chain.late} is late."
    if reason.length is not None:
        yield f"A walk as long as the bound goes from {ticks(reason.length.start)} to {ticks(reason.length.end)}."
    for missed in reason.missed:
        yield f"The job of {missed.task} that arrives at {ticks(missed.arrival)} reads at {ticks(missed.read)}: too early."
    for taken in reason.taken:
        yield (
            f"The job of {taken.task} that arrives at {ticks(taken.arrival)} carries the value, "
            f"and has written at {ticks(taken.write)}."
        )
    for group in reason.groups:
        if group.free:
            yield f"{group.task} keeps no phase: up to {ticks(group.distance)} between two arrivals count whole."
    yield from _window(reason)


def _window(reason: Reason) -> Iterator[str]:
    if reason.window is not None:
        window = reason.window
        yield (
            f"The worst window of {window.task} is that of the job at {ticks(window.arrival)}: "
            f"from {ticks(window.start)} to {ticks(window.end)}."
        )
    for share in reason.shares:
        if share.own is not None:
            yield f"{share.task} itself takes {ticks(share.own)}."
        elif share.block is not None:
            yield f"The runnable {share.by} below it holds the core for {ticks(share.block)}."
        elif share.jobs is not None and share.time is not None:
            free = ", which keeps no phase" if share.free else ""
            jobs = "one job" if share.jobs == 1 else f"{share.jobs} jobs"
            yield f"{jobs} of {share.above}{free} take {ticks(share.time)}."
    if reason.window is not None and reason.window.over is not None:
        yield f"That is {ticks(reason.window.over)} more than its deadline allows."


def hops(reason: Reason) -> Iterator[str]:
    """By how much each reader of a walk came too early."""
    for hop in reason.hops:
        if hop.missed_by is not None:
            yield f"{hop.reader} reads {ticks(hop.missed_by)} too early for what {hop.writer} hands over."
