"""Lists of edits, made in a document: each line of the table of the pages, of versions 1 and 2."""

from __future__ import annotations

from collections.abc import Callable, Iterator, Sequence
from typing import TYPE_CHECKING

from ..errors import ModelError

if TYPE_CHECKING:
    from .document import Model

TITLES = ("chainlat edits 1", "chainlat edits 2")
ASKING = ("report", "tighten", "verify")


def words_of(text: str) -> Iterator[tuple[int, list[str]]]:
    """The edits of a list as words, each with the number of its line, from 1. Comments and empty lines are none."""
    lines = text.removeprefix("\N{BYTE ORDER MARK}").split("\n")
    if lines[0].removesuffix("\r") not in TITLES:
        raise ModelError(f"line 1 of the list of edits isn't one of {', '.join(TITLES)}")
    for number, line in enumerate(lines[1:], 2):
        words = line.removesuffix("\r").split()
        if words and not words[0].startswith("#"):
            yield number, words


def names_of(word: str) -> list[str]:
    """The names of a list with commas; `*` is none."""
    return [] if word == "*" else word.split(",")


def number_of(word: str) -> int | None:
    """A number; `*` is none."""
    return None if word == "*" else int(word)


def _range(model: Model, name: str, least: str, greatest: str) -> None:
    runnable = model.runnable(name)
    runnable.least, runnable.greatest = int(least), int(greatest)


def _whole(model: Model, name: str, said: str) -> None:
    model.runnable(name).whole = said == "yes"


def _period(model: Model, name: str, period: str) -> None:
    model.stimulus(name).period = int(period)


def _offset(model: Model, name: str, offset: str) -> None:
    model.stimulus(name).offset = int(offset)


def _jitter(model: Model, name: str, jitter: str) -> None:
    model.stimulus(name).jitter = int(jitter)


def _distances(model: Model, name: str, least: str, greatest: str) -> None:
    stimulus = model.stimulus(name)
    stimulus.least, stimulus.greatest = int(least), int(greatest)


def _burst(model: Model, name: str, period: str, count: str, distance: str) -> None:
    stimulus = model.stimulus(name)
    stimulus.period, stimulus.count, stimulus.distance = int(period), int(count), int(distance)


def _deadline(model: Model, name: str, deadline: str) -> None:
    model.task(name).deadline = number_of(deadline)


def _swap(model: Model, one: str, other: str) -> None:
    first, second = model.task(one), model.task(other)
    first.priority, second.priority = second.priority, first.priority


def _priorities(model: Model, *pairs: str) -> None:
    for name, priority in zip(pairs[::2], pairs[1::2], strict=True):
        model.task(name).priority = int(priority)


def _move(model: Model, name: str, core: str, priority: str) -> None:
    task = model.task(name)
    task.core, task.priority = core, int(priority)


def _access(model: Model, name: str, kind: str) -> None:
    model.task(name).access = kind


def _task(model: Model, name: str, core: str, stimulus: str, priority: str, kind: str, deadline: str, *below: str) -> None:
    runnables = [
        {
            "name": below[at],
            "least": int(below[at + 1]),
            "greatest": int(below[at + 2]),
            "reads": names_of(below[at + 3]),
            "writes": names_of(below[at + 4]),
        }
        for at in range(0, len(below), 5)
    ]
    model.add_task(name, core, stimulus, int(priority), kind, runnables, number_of(deadline))


def _chain(model: Model, name: str, runnables: str, labels: str) -> None:
    model.add_chain(name, names_of(runnables), names_of(labels))


def _requirement(model: Model, name: str, chain: str, kind: str, most: str) -> None:
    for requirement in model.requirements:
        if requirement.name == name:
            if kind == "delay":
                model.version = 3
            requirement.chain, requirement.kind, requirement.most = chain, kind, int(most)
            return
    model.add_requirement(name, chain, kind, int(most))


def _drop_task(model: Model, name: str) -> None:
    model.drop_task(name)


def _drop_chain(model: Model, name: str) -> None:
    model.drop_chain(name)


def _drop_requirement(model: Model, name: str) -> None:
    model.drop_requirement(name)


Edit = Callable[..., None]

EDITS: dict[str, Edit] = {
    "range": _range,
    "whole": _whole,
    "period": _period,
    "offset": _offset,
    "jitter": _jitter,
    "distances": _distances,
    "burst": _burst,
    "deadline": _deadline,
    "swap": _swap,
    "priorities": _priorities,
    "move": _move,
    "access": _access,
    "task": _task,
    "drop-task": _drop_task,
    "chain": _chain,
    "drop-chain": _drop_chain,
    "requirement": _requirement,
    "drop-requirement": _drop_requirement,
}


def make_one(model: Model, words: Sequence[str]) -> None:
    """Makes one edit. One that asks for a report changes nothing."""
    if words[0] not in ASKING:
        EDITS[words[0]](model, *words[1:])


def make(model: Model, text: str) -> None:
    """Makes the edits of a list that the program makes too, one after the other."""
    for number, words in words_of(text):
        try:
            make_one(model, words)
        except (ModelError, KeyError, TypeError, ValueError) as error:
            raise ModelError(f"line {number} of the list of edits: {error}") from None
