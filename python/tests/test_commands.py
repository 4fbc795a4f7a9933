"""What the functions ask of the program, against what the pages say of these models."""

import json
from pathlib import Path

import pytest
from conftest import TOP

import chainlat
from chainlat import Model

DATA = TOP / "crates" / "chainlat" / "data"
TWO = DATA / "two.toml"
ENGINE = TOP / "examples" / "engine" / "engine.toml"

TIGHT = """\
chainlat tight 2
task A response 3 deadline 10
task B response 5 deadline 20
chain ab reaction 35 age 35 reduced 15 delay 25
"""


def test_a_model_may_be_a_path_a_text_bytes_or_a_document(program: str) -> None:
    for model in (TWO, str(TWO), TWO.read_text(), TWO.read_bytes(), Model.load(TWO)):
        assert str(chainlat.tighten(model)) == TIGHT


def test_a_changed_model_has_the_bounds_of_the_page(program: str) -> None:
    model = Model.load(TWO)
    model.stimulus("s20").offset = 3
    assert str(chainlat.tighten(model).chains[0]) == "chain ab reaction 28 age 28 reduced 8 delay 18"


def test_the_engine_is_verified_as_its_page_says(program: str) -> None:
    found = chainlat.verify(ENGINE)
    assert (found.sum.met, found.sum.broken, found.sum.unshown) == (15, 1, 1)
    frame = found.to_frame()
    assert list(frame[frame.verdict != "met"].name) == ["Monitor", "watchdog"]
    driver = frame[frame.name == "driver"].iloc[0]
    assert (driver.value, driver.limit, driver.room) == (70599, 100000, 29401)


def test_a_recording_is_made_and_measured(program: str) -> None:
    trace = chainlat.simulate(TOP / "crates" / "rows" / "data" / "fixed.toml", 37, 5)
    assert trace.ticks == 37
    assert str(chainlat.draw(TOP / "crates" / "rows" / "data" / "fixed.toml", trace, 0, 37)) == (
        TOP / "docs" / "fixed.svg"
    ).read_text()


def test_a_list_is_applied_and_edited(program: str) -> None:
    edits = "chainlat edits 2\ntighten\noffset s20 3\ntighten\n"
    first, second = chainlat.edit(TWO, edits).answers
    assert str(first) == TIGHT
    assert str(second.chains[0]) == "chain ab reaction 28 age 28 reduced 8 delay 18"
    assert str(chainlat.tighten(chainlat.apply(TWO, edits))) == str(second)


def test_a_refused_model_says_where_and_what_to_mend(program: str, tmp_path: Path) -> None:
    path = tmp_path / "wrong.toml"
    path.write_text(TWO.read_text().replace('core = "c1"', 'core = "c2"'))
    with pytest.raises(chainlat.ModelRefused) as caught:
        chainlat.verify(path)
    error = caught.value
    assert (error.status, error.line) == (5, "model refused M29 task[1].core")
    assert (error.file, error.row, error.column) == (str(path), 38, 1)
    assert error.advice is not None and error.advice.mend == "write the name of a [[core]]"
    assert str(error).startswith(f"{path}:38:1: model refused M29 task[1].core\n")


@pytest.mark.parametrize(
    ("ask", "kind", "status", "line"),
    [
        (lambda: chainlat.verify("there is none.toml"), chainlat.FileFault, 3, "read fault 1"),
        (lambda: chainlat.verify("no\nmodel\n"), chainlat.ModelRefused, 5, "model refused M1 top"),
        (lambda: chainlat.replay(TWO, "no\ntrace\n"), chainlat.TraceRefused, 6, "trace refused line 1"),
        (lambda: chainlat.apply(TWO, "no\nlist\n"), chainlat.EditsRefused, 7, "edits refused line 1 E1 top"),
        (lambda: chainlat.simulate(TWO, 1000000000, 1), chainlat.SimulationRefused, 8, None),
        (lambda: chainlat.simulate(TWO, -1, 1), chainlat.WordsRefused, 2, "words refused"),
        (lambda: chainlat.why(TWO, "reaction", "ba"), chainlat.NameUnknown, 15, "unknown chain ba"),
        (
            lambda: chainlat.draw(TWO, chainlat.simulate(TWO, 40, 1), 0, 41),
            chainlat.WindowRefused, 14, "window refused 0 41 of 40",
        ),
    ],
)
def test_each_status_is_an_error_of_its_own(program: str, ask: object, kind: type, status: int, line: str | None) -> None:
    with pytest.raises(kind) as caught:
        ask()  # type: ignore[operator]
    assert caught.value.status == status
    if line is not None:
        assert caught.value.line == line


def test_a_refused_file_is_an_answer_of_check(program: str) -> None:
    found = chainlat.check(TWO, "chainlat edits 2\nrange B 4 6\n")
    assert not found.is_accepted
    assert str(found) == 'edits refused line 2 E2 top\nfound "range B 4 6"\nunknown runnable B\nknown a b\n'


def test_a_program_that_is_not_there_is_an_error() -> None:
    with pytest.raises(chainlat.ProgramMissing, match="no executable nowhere"):
        chainlat.verify(TWO, program=chainlat.Program("nowhere"))


def test_a_program_that_takes_too_long_is_given_up(tmp_path: Path) -> None:
    slow = tmp_path / "slow"
    slow.write_text("#!/bin/sh\nexec sleep 20\n")
    slow.chmod(0o755)
    with pytest.raises(chainlat.ProgramFailed, match="ran out of time"):
        chainlat.verify(TWO, program=chainlat.Program(str(slow), seconds=0.2))


def test_an_answer_that_is_not_known_is_an_error(tmp_path: Path) -> None:
    other = tmp_path / "other"
    other.write_text("#!/bin/sh\nprintf 'chainlat verify 3\\n'\n")
    other.chmod(0o755)
    with pytest.raises(chainlat.UnknownLine, match="line 1 isn't known: 'chainlat verify 3'"):
        chainlat.verify(TWO, program=chainlat.Program(str(other)))


def test_a_picture_is_shown_by_a_notebook(program: str) -> None:
    picture = chainlat.draw(TWO, chainlat.simulate(TWO, 40, 1), 0, 40)
    assert picture._repr_svg_() == str(picture)
    assert (picture.start, picture.end, picture.ticks) == (0, 40, 40)
    assert json.loads(picture.to_json())["width"] == 1200


def test_a_trace_is_written_as_it_was_read() -> None:
    text = (TOP / "crates" / "rows" / "data" / "fixed.trace").read_bytes()
    assert bytes(chainlat.Trace.load(text)) == text
