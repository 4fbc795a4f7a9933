"""Each whole answer of the files of rows and of the pages is read, and written back as the very text."""

import importlib.machinery
import importlib.util
import json
from collections.abc import Iterator
from typing import Any

import jsonschema
import pytest
from conftest import ROWS, TOP
from rowsfile import cases

import chainlat
from chainlat.refusals import refusal_of

ANSWERS: dict[str, Any] = {
    "analyse": chainlat.Report, "tighten": chainlat.Tight, "verify": chainlat.Verification,
    "explain": chainlat.Explanation, "why": chainlat.Reason, "margin": chainlat.Margin,
    "headroom": chainlat.Headroom, "order": chainlat.Order, "cut": chainlat.Cuts, "replay": chainlat.Replay,
    "observe": chainlat.Observation, "check": chainlat.Check, "edit": chainlat.Edited, "draw": chainlat.Picture,
    "simulate": chainlat.Trace, "witness": chainlat.Trace, "migrate": chainlat.Model, "apply": chainlat.Model,
    "generate": chainlat.Model,
}
STATUSES = {"verify": (0, 13), "check": (0, 5, 6, 7)}
Found = tuple[str, str, int, str]


def rows() -> Iterator[Found]:
    """The whole answers of the files of rows: where, the command, the status and the text."""
    for path in sorted(ROWS.glob("*.rows")):
        for case in cases(path, ROWS)[1]:
            for command in case.commands:
                words = command.split()
                if words and words[0] in ANSWERS and case.whole and not case.limits and not case.unsure:
                    yield f"{path.name} {case.name}", words[0], case.status, case.text.decode()


def reader_of_pages() -> Any:
    """The script that runs the command lines of the pages."""
    loader = importlib.machinery.SourceFileLoader("check_pages", str(TOP / "scripts" / "check-pages"))
    spec = importlib.util.spec_from_loader("check_pages", loader)
    assert spec is not None
    module = importlib.util.module_from_spec(spec)
    loader.exec_module(module)
    return module


def pages() -> Iterator[Found]:
    """The whole answers of the pages: those of one command whose text isn't handed on and isn't cut."""
    reader = reader_of_pages()
    for path in [TOP / "README.md", *sorted((TOP / "docs").glob("*.md")), *sorted((TOP / "examples").glob("*/*.md"))]:
        for begins, lines, _ in reader.blocks(path.read_text()):
            for number, command, answer in reader.steps(begins, lines):
                first, *more = [it.strip() for it in "\n".join(command).split(";")]
                words = first.split()
                if words[:1] == ["rt"]:
                    words = words[2:]
                status = 0
                if more and (not answer or more != ['echo "status $?"']):
                    continue
                if more:
                    *kept, last = answer.splitlines(True)
                    status, answer = int(last.split()[1]), "".join(kept)
                whole = not set("|><") & set(first) and "..\n" not in answer.splitlines(True)
                if words[:1] == ["chainlat"] and whole and len(words) > 1 and words[1] in ANSWERS and answer:
                    yield f"{path.name}:{number}", words[1], status, answer


FOUND = [*rows(), *pages()]
WHOLE = [it for it in FOUND if it[2] in STATUSES.get(it[1], (0,))]
OTHERS = [it for it in FOUND if it[2] not in STATUSES.get(it[1], (0,)) and it[3]]


def told(found: Found) -> str:
    return f"{found[1]} {found[0]}"


def test_there_are_several_hundred_answers() -> None:
    assert len(WHOLE) > 800
    assert {it[1] for it in WHOLE} == set(ANSWERS) - {"generate"}


@pytest.mark.parametrize("found", WHOLE, ids=told)
def test_an_answer_is_written_back_as_the_very_text(found: Found) -> None:
    _, command, status, text = found
    answer = ANSWERS[command].read(text)
    assert str(answer) == text
    if command == "verify":
        assert answer.is_met == (status == 0)
    if command == "check":
        assert answer.is_accepted == (status == 0)
        assert status == (answer.refusal.STATUS if answer.refusal else 0)


@pytest.mark.parametrize("found", OTHERS, ids=told)
def test_a_refusal_is_written_back_as_the_very_text(found: Found) -> None:
    _, command, status, text = found
    *before, line = text.splitlines()
    if command == "edit" and status == 7 and before:
        assert str(chainlat.Edited.read("".join(f"{it}\n" for it in before))).splitlines() == before
    else:
        assert not before
    refusal = refusal_of(status, line)
    assert refusal is not None
    assert str(refusal) == line


@pytest.mark.parametrize("found", WHOLE, ids=told)
def test_no_changed_line_is_passed_over(found: Found) -> None:
    """A word more at the end of any line, and a line twice over that isn't one of many, is an error that names it."""
    _, command, _, text = found
    if ANSWERS[command] in (chainlat.Model, chainlat.Picture, chainlat.Trace):
        return
    lines = text.splitlines()
    for number, line in enumerate(lines[:20]):
        if line.split(" ")[0] in ("found", "key", "wanted", "mend", "message", "known", "model", "edits"):
            continue
        changed = [*lines[:number], f"{line} besides", *lines[number + 1:]]
        with pytest.raises(chainlat.UnknownLine) as caught:
            ANSWERS[command].read("".join(f"{it}\n" for it in changed))
        assert caught.value.number == number + 1
        assert caught.value.line == f"{line} besides"


def schema_of(command: str) -> Any:
    return json.loads((TOP / "python" / "schema" / f"{command}.schema.json").read_text())


@pytest.mark.parametrize("found", [it for it in WHOLE if ANSWERS[it[1]] is not chainlat.Model], ids=told)
def test_the_json_of_an_answer_is_as_its_schema_says(found: Found) -> None:
    _, command, _, text = found
    answer = ANSWERS[command].read(text)
    jsonschema.validate(json.loads(answer.to_json()), schema_of(answer.COMMAND))


@pytest.mark.parametrize("found", [it for it in WHOLE if ANSWERS[it[1]] is chainlat.Model], ids=told)
def test_the_json_of_a_model_is_as_the_schema_of_models_says(found: Found) -> None:
    schema = json.loads((TOP / "schema" / "chainlat.schema.json").read_text())
    jsonschema.validate(json.loads(chainlat.Model.read(found[3]).to_json()), schema)


@pytest.mark.parametrize("command", sorted(set(ANSWERS) - {"generate"}))
def test_an_answer_becomes_a_frame(command: str) -> None:
    text = max((it[3] for it in WHOLE if it[1] == command and len(it[3]) < 20000), key=len)
    frame = ANSWERS[command].read(text).to_frame()
    assert len(frame) > 0
