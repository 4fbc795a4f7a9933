"""The proved program: where it is, and how a command is asked of it.

Every number of this package comes from here. The executable is the one that `Program(path)` names, else the one that
the environment variable `CHAINLAT` names, else `chainlat` on the `PATH`.
"""

from __future__ import annotations

import os
import shutil
import subprocess
import tempfile
from collections.abc import Sequence
from contextlib import ExitStack
from dataclasses import dataclass
from pathlib import Path

from .errors import ERRORS, ProgramFailed, ProgramMissing, Refused
from .refusals import FaultLine, LongLine, refusal_of
from .sources import File

VARIABLE = "CHAINLAT"


@dataclass(frozen=True)
class Ran:
    """How a command ended: its exit status and its text."""

    status: int
    text: str


@dataclass(frozen=True)
class Program:
    """An executable `chainlat`, and after how many seconds a command of it is given up (None: never)."""

    path: str | None = None
    seconds: float | None = None

    @property
    def executable(self) -> str:
        """The file of the executable. Raises `ProgramMissing` where there is none."""
        named = self.path or os.environ.get(VARIABLE) or "chainlat"
        found = shutil.which(named)
        if found is None:
            raise ProgramMissing(
                f"there is no executable {named}: name it by the environment variable {VARIABLE} or put it on the PATH"
            )
        return found

    def run(self, *words: str | File) -> Ran:
        """Runs a command. One content of a file goes in by the standard input, any other by a file for its time."""
        several = sum(isinstance(word, File) and word.content is not None for word in words) > 1
        with ExitStack() as stack:
            folder = stack.enter_context(tempfile.TemporaryDirectory(prefix="chainlat-")) if several else ""
            arguments, given = _arguments(words, folder)
            try:
                done = subprocess.run(
                    [self.executable, *arguments],
                    input=given,
                    capture_output=True,
                    timeout=self.seconds,
                    check=False,
                )
            except subprocess.TimeoutExpired:
                raise ProgramFailed(_shown(words), None, "") from None
            except OSError as error:
                raise ProgramMissing(f"{self.executable} does not start: {error.strerror}") from None
        return Ran(done.returncode, done.stdout.decode("utf-8", "replace"))

    def ask(self, *words: str | File, statuses: Sequence[int] = (0,)) -> Ran:
        """Runs a command that has to end with one of these statuses. Raises the error of any other."""
        ran = self.run(*words)
        if ran.status in statuses:
            return ran
        raise self._error(ran, words)

    def _error(self, ran: Ran, words: Sequence[str | File]) -> Refused | ProgramFailed:
        from .commands.check import Check

        files = [word for word in words if isinstance(word, File)]
        kind = ERRORS.get(ran.status)
        *before, line = ran.text.splitlines() or [""]
        refusal = refusal_of(ran.status, line)
        if kind is None or (refusal is None and ran.status not in (9, 10, 12)):
            return ProgramFailed(_shown(words), ran.status, ran.text)
        if refusal is None:
            return kind("", answer=ran.text)
        place = {5: 1, 6: 2, 7: 2}.get(ran.status)
        if isinstance(refusal, FaultLine | LongLine):
            place = refusal.file
        file = files[place - 1] if place is not None and place <= len(files) else None
        advice = None
        if ran.status in (5, 6, 7) and words[0] != "check":
            advice = Check.read(self.ask("check", *files[:place], statuses=(0, 5, 6, 7)).text)
        answer = "".join(f"{it}\n" for it in before)
        return kind(line, refusal, advice=advice, file=file.name if file else None, answer=answer)


def _arguments(words: Sequence[str | File], folder: str) -> tuple[list[str], bytes]:
    """The words of a command as arguments, and what goes in by the standard input."""
    arguments: list[str] = []
    given: bytes | None = None
    for number, word in enumerate(words):
        if isinstance(word, str):
            arguments.append(word)
        elif word.content is None:
            arguments.append(os.fspath(word.path or ""))
        elif given is None:
            given = word.content
            arguments.append("/dev/stdin")
        else:
            path = Path(folder) / f"file{number}"
            path.write_bytes(word.content)
            arguments.append(os.fspath(path))
    return arguments, given or b""


def _shown(words: Sequence[str | File]) -> tuple[str, ...]:
    return tuple(word if isinstance(word, str) else word.name or "-" for word in words)


def the(program: Program | None) -> Program:
    """The program that is given, or the one that is found."""
    return Program() if program is None else program
