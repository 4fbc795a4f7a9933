"""A model: a document whose comments, order and layout stay as its author wrote them."""

from __future__ import annotations

import json
import os
from collections.abc import Iterable, Mapping, Sequence
from typing import TYPE_CHECKING, Any, Self, TypeVar

import tomlkit
from tomlkit.exceptions import TOMLKitError
from tomlkit.items import AoT

from ..answer import frame_of
from ..errors import ModelError
from ..sources import Source, content_of, file_of
from .entries import Chain, Core, Entry, Label, Requirement, Runnable, Stimulus, Task, one_of

if TYPE_CHECKING:
    import pandas

    from ..program import Program

SomeEntry = TypeVar("SomeEntry", bound=Entry)
BEGINNING = 'format = "chainlat"\nversion = 2\n'


class Model:
    """A model file as a document.

    `Model()` is a model of nothing, to be built by `add_core` and its like; `Model.load` reads a file. What is set is
    checked key by key. Whether the model as a whole keeps the rules says the program, by `check`.
    """

    def __init__(self, document: tomlkit.TOMLDocument | None = None, name: str | None = None) -> None:
        self.document = tomlkit.parse(BEGINNING) if document is None else document
        self.name = name

    @classmethod
    def read(cls, text: str, name: str | None = None) -> Self:
        """Reads a text. Raises `ModelError` where it is no TOML 1.0; `check` says more of it.

        A model file may be TOML 1.1, of which the program reads more than this class does, as a table between braces
        that goes over several lines.
        """
        try:
            return cls(tomlkit.parse(text.removeprefix("\N{BYTE ORDER MARK}")), name)
        except TOMLKitError as error:
            raise ModelError(f"{name + ': ' if name else ''}{error}") from None

    @classmethod
    def load(cls, source: Source) -> Self:
        """Reads a model from a path, a text, bytes or another model."""
        try:
            return cls.read(content_of(source).decode(), file_of(source).name)
        except UnicodeDecodeError:
            raise ModelError(f"{file_of(source).name or 'the model'} is not UTF-8") from None

    @property
    def text(self) -> str:
        """The document as it stands."""
        return tomlkit.dumps(self.document)

    def __str__(self) -> str:
        return self.text

    def __bytes__(self) -> bytes:
        return self.text.encode()

    def __repr__(self) -> str:
        return f"<Model {self.name or ''} of {len(self.tasks)} tasks>"

    def copy(self) -> Self:
        """Another document of the same text."""
        return type(self).read(self.text, self.name)

    def save(self, path: str | os.PathLike[str]) -> None:
        """Writes the document to a file, by a temporary file that is renamed."""
        from ..files import write_over

        write_over(path, bytes(self))

    @property
    def version(self) -> int:
        """The version of the format, 1 to 3."""
        version: int = self.document.unwrap()["version"]
        return version

    @version.setter
    def version(self, version: int) -> None:
        if version not in (1, 2, 3):
            raise ModelError(f"wanted a version of 1 to 3, found {version!r}")
        self.document["version"] = version

    def _all(self, kind: type[SomeEntry]) -> tuple[SomeEntry, ...]:
        return tuple(kind(table) for table in self.document.get(kind.SECTION, ()))

    @property
    def cores(self) -> tuple[Core, ...]:
        """All cores, in the order of the file, as all of these."""
        return self._all(Core)

    @property
    def stimuli(self) -> tuple[Stimulus, ...]:
        """All stimuli."""
        return self._all(Stimulus)

    @property
    def labels(self) -> tuple[Label, ...]:
        """All labels."""
        return self._all(Label)

    @property
    def tasks(self) -> tuple[Task, ...]:
        """All tasks."""
        return self._all(Task)

    @property
    def runnables(self) -> tuple[Runnable, ...]:
        """The runnables of all tasks."""
        return tuple(runnable for task in self.tasks for runnable in task.runnables)

    @property
    def chains(self) -> tuple[Chain, ...]:
        """All chains."""
        return self._all(Chain)

    @property
    def requirements(self) -> tuple[Requirement, ...]:
        """All requirements."""
        return self._all(Requirement)

    def _one(self, kind: type[SomeEntry], name: str) -> SomeEntry:
        found: SomeEntry = one_of(self._all(kind), name, kind.SECTION)
        return found

    def core(self, name: str) -> Core:
        """The core of a name. Raises `ModelError` where there is none, as all of these."""
        return self._one(Core, name)

    def stimulus(self, name: str) -> Stimulus:
        """The stimulus of a name."""
        return self._one(Stimulus, name)

    def label(self, name: str) -> Label:
        """The label of a name."""
        return self._one(Label, name)

    def task(self, name: str) -> Task:
        """The task of a name."""
        return self._one(Task, name)

    def runnable(self, name: str) -> Runnable:
        """The runnable of a name, of any task."""
        found: Runnable = one_of(self.runnables, name, "runnable")
        return found

    def chain(self, name: str) -> Chain:
        """The chain of a name."""
        return self._one(Chain, name)

    def requirement(self, name: str) -> Requirement:
        """The requirement of a name."""
        return self._one(Requirement, name)

    def _add(self, kind: type[SomeEntry], values: Mapping[str, Any], below: Sequence[Mapping[str, Any]] = ()) -> SomeEntry:
        """Adds an entry behind the others of its section, in the way in which these are written."""
        as_headers = isinstance(self.document.get(kind.SECTION, tomlkit.aot()), AoT)
        table: Any = tomlkit.table() if as_headers else tomlkit.inline_table()
        entry = kind(table)
        for key, value in values.items():
            if value is not None:
                setattr(entry, key, value)
        if below:
            table["runnable"] = _runnables(below, as_headers)
        if as_headers:
            self._end_line()
        section = self.document.get(kind.SECTION)
        if section is None:
            section = tomlkit.aot()
            section.append(table)
            self.document.append(kind.SECTION, section)
        else:
            section.append(table)
        return self._all(kind)[-1]

    def _end_line(self) -> None:
        """Ends the last line of the document, and leaves one empty behind it."""
        text = self.text
        missing = "" if text.endswith("\n\n") else "\n" if text.endswith("\n") else "\n\n"
        if missing:
            self.document = tomlkit.parse(text + missing)

    def add_core(self, name: str) -> Core:
        """Adds a core."""
        return self._add(Core, {"name": name})

    def add_label(self, name: str) -> Label:
        """Adds a label."""
        return self._add(Label, {"name": name})

    def add_periodic(self, name: str, period: int, offset: int = 0, jitter: int = 0) -> Stimulus:
        """Adds a periodic stimulus. Times are in ticks."""
        values = {"name": name, "kind": "periodic", "period": period, "offset": offset, "jitter": jitter}
        return self._add(Stimulus, values)

    def add_sporadic(self, name: str, least: int, greatest: int) -> Stimulus:
        """Adds a sporadic stimulus, of the least and the greatest distance between two arrivals in ticks."""
        return self._add(Stimulus, {"name": name, "kind": "sporadic", "least": least, "greatest": greatest})

    def add_burst(self, name: str, period: int, count: int, distance: int, offset: int = 0) -> Stimulus:
        """Adds a burst: in each period `count` jobs, `distance` ticks apart."""
        self.version = max(self.version, 2)
        values = {"name": name, "kind": "burst", "period": period, "offset": offset, "count": count}
        return self._add(Stimulus, {**values, "distance": distance})

    def add_task(
        self,
        name: str,
        core: str,
        stimulus: str,
        priority: int,
        access: str,
        runnables: Iterable[Mapping[str, Any]],
        deadline: int | None = None,
    ) -> Task:
        """Adds a task. Each runnable is a mapping of `name`, `least`, `greatest` and, where wanted, `whole`, `reads`,
        `writes`. Times are in ticks."""
        values = {"name": name, "core": core, "stimulus": stimulus, "priority": priority, "access": access}
        return self._add(Task, {**values, "deadline": deadline}, tuple(runnables))

    def add_chain(self, name: str, runnables: Sequence[str], labels: Sequence[str] = ()) -> Chain:
        """Adds a chain of these runnables, with the labels between them."""
        return self._add(Chain, {"name": name, "runnables": runnables, "labels": labels})

    def add_requirement(self, name: str, chain: str, kind: str, most: int) -> Requirement:
        """Adds a requirement: of the chain this kind is at most `most` ticks."""
        if kind == "delay":
            self.version = 3
        return self._add(Requirement, {"name": name, "chain": chain, "kind": kind, "most": most})

    def _drop(self, kind: type[Entry], name: str) -> None:
        section = self.document.get(kind.SECTION, [])
        entry = self._one(kind, name)
        at = [it.table for it in self._all(kind)].index(entry.table)
        if len(section) == 1:
            del self.document[kind.SECTION]
        else:
            del section[at]

    def drop_task(self, name: str) -> None:
        """Removes a task; the others keep their order."""
        self._drop(Task, name)

    def drop_chain(self, name: str) -> None:
        """Removes a chain; the others keep their order."""
        self._drop(Chain, name)

    def drop_requirement(self, name: str) -> None:
        """Removes a requirement; the others keep their order."""
        self._drop(Requirement, name)

    def apply(self, edits: Source, *, program: Program | None = None) -> None:
        """Makes a list of edits in this document, with comments, order and layout kept.

        The program is asked first whether it makes the list, so a list that it refuses raises its `EditsRefused`, and
        changes nothing.
        """
        from ..program import the
        from .edits import make

        text = content_of(edits)
        the(program).ask("apply", file_of(bytes(self)), file_of(text))
        make(self, text.decode())

    def to_json(self) -> str:
        """The model as JSON: the document without its comments, as the schema of model files in the folder `schema` of the repository says."""
        return json.dumps(self.document.unwrap(), indent=2) + "\n"

    def to_frame(self) -> pandas.DataFrame:
        """A row for each runnable, with the keys of its task; times in ticks."""
        return frame_of(
            {
                "task": task.name,
                "core": task.core,
                "stimulus": task.stimulus,
                "priority": task.priority,
                "access": task.access,
                "deadline": task.deadline,
                "runnable": it.name,
                "least": it.least,
                "greatest": it.greatest,
                "whole": it.whole,
                "reads": it.reads,
                "writes": it.writes,
            }
            for task in self.tasks
            for it in task.runnables
        )


def _runnables(below: Sequence[Mapping[str, Any]], as_headers: bool) -> Any:
    """The runnables of a new task: headers below a header, and tables between braces in one."""
    found: Any = tomlkit.aot() if as_headers else tomlkit.array()
    for values in below:
        table: Any = tomlkit.table() if as_headers else tomlkit.inline_table()
        entry = Runnable(table)
        for key, value in values.items():
            if key not in _KEYS:
                raise ModelError(f"a runnable has no key {key}: its keys are {', '.join(_KEYS)}")
            setattr(entry, key, value)
        found.append(table)
    return found


_KEYS = ("name", "least", "greatest", "whole", "reads", "writes")
