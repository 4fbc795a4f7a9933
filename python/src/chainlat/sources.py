"""What may be given as a model, a list of edits or a trace: a path, text, bytes, or an object of this package."""

from __future__ import annotations

import os
from dataclasses import dataclass
from typing import Protocol, runtime_checkable


@runtime_checkable
class Document(Protocol):
    """An object that is the content of a file, as a `Model` and a `Trace` are."""

    def __bytes__(self) -> bytes: ...


Source = str | bytes | os.PathLike[str] | Document


@dataclass(frozen=True)
class File:
    """A file of a command: a path, or a content. `name` is how messages call it."""

    path: str | None = None
    content: bytes | None = None
    name: str | None = None


def file_of(source: Source) -> File:
    """The file that a source is.

    A `str` with a line end in it is a text, and one without is a path: no model, no list of edits and no trace of
    anything is one line without its end. Bytes are a content, and so is what has a content, as a `Model` or a `Trace`.
    """
    if isinstance(source, str):
        if "\n" in source:
            return File(content=source.encode("utf-8", "surrogateescape"))
        return File(path=source, name=source)
    if isinstance(source, bytes):
        return File(content=source)
    if isinstance(source, os.PathLike):
        path = os.fspath(source)
        return File(path=path, name=path)
    return File(content=bytes(source), name=getattr(source, "name", None))


def content_of(source: Source) -> bytes:
    """The content of a source; of a path it is read. Raises `OSError` where it can't be."""
    file = file_of(source)
    if file.content is not None:
        return file.content
    with open(file.path or "", "rb") as opened:
        return opened.read()
