"""The command line: what it writes, with which status, and that it shows no traceback."""

import json
import os
import subprocess
import sys
import xml.etree.ElementTree as ElementTree
from pathlib import Path

import pytest
from conftest import TOP

import chainlat

DATA = TOP / "crates" / "chainlat" / "data"
TWO = str(DATA / "two.toml")
ENGINE = str(TOP / "examples" / "engine" / "engine.toml")
FIXED = str(TOP / "crates" / "rows" / "data" / "fixed.toml")


def tools(*words: str, given: bytes = b"") -> subprocess.CompletedProcess[bytes]:
    environment = {**os.environ, "PYTHONPATH": str(TOP / "python" / "src"), "COLUMNS": "120"}
    done = subprocess.run(
        [sys.executable, "-m", "chainlat", *words], input=given, capture_output=True, env=environment, check=False
    )
    assert b"Traceback" not in done.stderr
    return done


def test_json_is_the_answer(program: str) -> None:
    done = tools("json", "tighten", TWO)
    assert done.returncode == 0
    assert json.loads(done.stdout)["chains"] == [
        {"name": "ab", "reaction": 35, "age": 35, "reduced": 15, "delay": 25, "late": None}
    ]


def test_json_reads_the_standard_input_and_has_the_status_of_verify(program: str) -> None:
    done = tools("json", "verify", "-", given=Path(ENGINE).read_bytes())
    assert done.returncode == 13
    assert json.loads(done.stdout)["sum"] == {"met": 15, "broken": 1, "unshown": 1}


def test_junit_has_a_case_for_each_task_and_requirement(program: str) -> None:
    done = tools("junit", TWO, ENGINE)
    assert done.returncode == 13
    two, engine = ElementTree.fromstring(done.stdout)
    assert (two.get("name"), two.get("tests"), two.get("failures")) == (TWO, "2", "0")
    assert (engine.get("tests"), engine.get("failures"), engine.get("skipped")) == ("17", "2", "0")
    failed = {case.get("name"): case.find("failure") for case in engine if case.find("failure") is not None}
    assert set(failed) == {"task Monitor", "requirement watchdog"}
    assert "window Monitor arrival 20000 from 20000 to 28000 over 600" in (failed["task Monitor"].text or "")


def test_junit_skips_what_is_unshown_where_it_is_asked_to(program: str) -> None:
    [engine] = ElementTree.fromstring(tools("junit", "--unshown=skip", ENGINE).stdout)
    assert (engine.get("failures"), engine.get("skipped")) == ("1", "1")


def test_junit_has_an_error_for_a_refused_model(program: str, tmp_path: Path) -> None:
    wrong = tmp_path / "wrong.toml"
    wrong.write_text("format = 3\n")
    done = tools("junit", str(wrong))
    assert done.returncode == 13
    [suite] = ElementTree.fromstring(done.stdout)
    assert suite.get("errors") == "1"
    assert "model refused M2 top.format" in ElementTree.tostring(suite, "unicode")


def test_a_table_shows_value_limit_room_and_verdict(program: str) -> None:
    done = tools("table", ENGINE)
    assert done.returncode == 13
    [line] = [it for it in done.stdout.decode().splitlines() if "request_to_fuel" in it]
    assert [it.strip() for it in line.split("│")[1:-1]] == [
        "reaction of request_to_fuel", "driver", "70,599", "100,000", "29,401", "met",
    ]


def test_compare_says_what_changed(program: str, tmp_path: Path) -> None:
    later = tmp_path / "later.toml"
    model = chainlat.Model.load(TWO)
    model.stimulus("s20").offset = 3
    model.save(later)
    done = tools("compare", TWO, str(later))
    assert done.returncode == 0
    assert done.stdout.decode() == (
        "chain ab: its reaction went from 35 to 28, 7 less\n"
        "chain ab: its age went from 35 to 28, 7 less\n"
        "chain ab: its reduced went from 15 to 8, 7 less\n"
        "chain ab: its delay went from 25 to 18, 7 less\n"
    )
    assert tools("compare", TWO, TWO).stdout == b"nothing changed\n"


def test_compare_says_which_verdicts_changed(program: str, tmp_path: Path) -> None:
    mended = tmp_path / "mended.toml"
    done = tools("apply", ENGINE, str(TOP / "examples" / "engine" / "mend.edits"), "-o", str(mended))
    assert (done.returncode, done.stdout) == (0, b"")
    lines = tools("compare", ENGINE, str(mended)).stdout.decode().splitlines()
    assert "task Monitor was broken and is met" in lines
    assert "requirement watchdog was unshown and is met" in lines
    assert "requirement watchdog: its bound went from none to 42080" in lines
    assert "chain request_to_watchdog has bounds now; Monitor was late" in lines


def test_apply_keeps_comments_and_writes_no_file_but_the_one_named(program: str, tmp_path: Path) -> None:
    edits = tmp_path / "later.edits"
    edits.write_text("chainlat edits 2\nmove Monitor Comms 2\n")
    done = tools("apply", ENGINE, str(edits))
    assert done.stdout.decode().count("#") == Path(ENGINE).read_text().count("#")
    assert sorted(it.name for it in tmp_path.iterdir()) == ["later.edits"]


@pytest.mark.parametrize(
    ("words", "status", "said"),
    [
        (("json", "verify", "none.toml"), 3, "none.toml: read fault 1"),
        (("json", "why", TWO, "reaction", "ba"), 15, "unknown chain ba"),
        (("json", "why", TWO), 2, "why takes 3 arguments, found 1"),
        (("table", "none.toml"), 3, "none.toml: read fault 1"),
        (("apply", "none.toml", "none.edits"), 1, "No such file or directory: 'none.toml'"),
        (("report", TWO), 2, "Missing option '-o'"),
        (("report", TWO, "-o", "none/there.html"), 1, "No such file or directory"),
        (("sweep", TWO), 2, "wanted either --change or --list"),
        (("sweep", TWO, "-c", "offset s20 {0..9/0}"), 2, "the step of 0..9/0 is 0"),
        (("from-csv", TWO, "none.csv"), 1, "No such file or directory: 'none.csv'"),
        (("nothing",), 2, "No such command 'nothing'"),
    ],
)
def test_bad_input_is_told_in_the_words_of_the_program(
    program: str, words: tuple[str, ...], status: int, said: str
) -> None:
    done = tools(*words)
    assert done.returncode == status
    assert said in done.stderr.decode()
    assert done.stdout == b""


def test_a_refused_model_is_told_with_file_line_and_column(program: str, tmp_path: Path) -> None:
    wrong = tmp_path / "wrong.toml"
    wrong.write_text(Path(TWO).read_text().replace('core = "c1"', 'core = "c2"'))
    done = tools("table", str(wrong))
    assert done.returncode == 5
    first, *more = done.stderr.decode().splitlines()
    assert first == f"{wrong}:38:1: model refused M29 task[1].core"
    assert "mend write the name of a [[core]]" in more


TABLE = """\
task,arrival,release,runnable,start,end,core
A,0,0,a,0,3,c0
A,10,10,a,10,13,c0
B,12,12,b,12,14,c1
B,12,12,b,15,17,c1
A,20,20,a,20,23,c0
A,30,30,a,30,33,c0
B,32,32,b,32,37,c1
"""


def test_a_table_of_events_becomes_the_trace_of_the_page(program: str, tmp_path: Path) -> None:
    table = tmp_path / "events.csv"
    table.write_text(TABLE)
    done = tools("from-csv", FIXED, str(table))
    assert done.returncode == 0, done.stderr
    assert done.stdout == (TOP / "crates" / "rows" / "data" / "fixed.trace").read_bytes()


def test_columns_have_the_names_that_options_say(program: str, tmp_path: Path) -> None:
    table = tmp_path / "events.csv"
    table.write_text(TABLE.replace("arrival", "Activation Time", 1).replace(",", "\t"))
    done = tools("from-csv", FIXED, str(table), "--arrival", "Activation Time", "--separator", "\\t")
    assert done.stdout == (TOP / "crates" / "rows" / "data" / "fixed.trace").read_bytes()


def test_two_jobs_are_joined_where_nothing_lies_between_them_and_no_gap_is_theirs(
    program: str, tmp_path: Path
) -> None:
    table = tmp_path / "events.csv"
    header = TABLE.splitlines()[0]
    for start, runs in ((10, "run A 7 13\n"), (11, "run A 7 10\nrun A 11 14\n")):
        table.write_text(f"{header}\nA,0,0,a,7,10,c0\nA,10,10,a,{start},{start + 3},c0\n")
        lines = tools("from-csv", FIXED, str(table)).stdout.decode()
        assert lines.endswith(f"job A 0 0 3\njob A 10 10 3\n{runs}end\n")


def test_what_the_last_job_has_not_run_is_written_as_a_tick(program: str, tmp_path: Path) -> None:
    table, two = tmp_path / "events.csv", tmp_path / "two.toml"
    model = chainlat.Model.load(FIXED)
    model.apply("chainlat edits 2\ntask C c0 s10 9 implicit * c 1 2 * * d 1 2 * *\n")
    model.save(two)
    header = TABLE.splitlines()[0]
    table.write_text(f"{header}\nC,0,0,c,0,2,c0\nC,0,0,d,2,4,c0\nC,10,10,c,10,11,c0\n")
    assert "job C 0 0 2 2\njob C 10 10 1 1\n" in tools("from-csv", str(two), str(table)).stdout.decode()
    table.write_text(f"{header}\nC,0,0,c,0,2,c0\nC,10,10,c,10,11,c0\n")
    done = tools("from-csv", str(two), str(table))
    assert "the job of C that arrives at 0 has no event of d" in done.stderr.decode()


@pytest.mark.parametrize(
    ("old", "new", "said"),
    [
        ("B,32,32,b,32,37,c1", "Z,32,32,b,32,37,c1", "events.csv:8: unknown task Z: known are A B"),
        ("B,32,32,b,32,37,c1", "B,32,32,a,32,37,c1", "events.csv:8: B has no runnable a: known are b"),
        ("B,32,32,b,32,37,c1", "B,32,32,b,32,37,c0", "events.csv:8: B runs on c1, not on c0"),
        ("A,10,10,a,10,13,c0", "A,10,10,a,2,13,c0", "events.csv:3: it starts at 2, and A ran on c0 up to 3"),
        ("A,10,10,a,10,13,c0", "A,10,10,a,10,10,c0", "events.csv:3: the end 10 isn't after the start 10"),
        ("A,10,10,a,10,13,c0", "A,10,,a,10,13,c0", "events.csv:3: release is missing"),
        ("A,10,10,a,10,13,c0", "A,1.5,10,a,10,13,c0", "events.csv:3: arrival is 1.5, wanted a whole number of ticks"),
        ("B,12,12,b,15,17,c1", "B,12,13,b,15,17,c1", "events.csv:5: this job was released at 12 in a line above, and at 13"),
        ("task,arrival", "task,activation", "events.csv:1: there is no column arrival"),
    ],
)
def test_an_event_that_does_not_fit_is_an_error_with_its_line(
    program: str, tmp_path: Path, old: str, new: str, said: str
) -> None:
    table = tmp_path / "events.csv"
    table.write_text(TABLE.replace(old, new, 1))
    done = tools("from-csv", FIXED, str(table))
    assert done.returncode == 1
    assert said in done.stderr.decode()


def test_a_sweep_writes_a_table_with_the_best_first(program: str) -> None:
    done = tools("sweep", TWO, "-c", "offset s20 {0..20/5}", "--ask", "tighten", "--workers", "2", "--quiet")
    assert done.returncode == 0, done.stderr
    header, *lines = done.stdout.decode().splitlines()
    columns = header.split(",")
    rows = [dict(zip(columns, line.split(","), strict=True)) for line in lines]
    assert [row["edits"] for row in rows][-1] == "offset s20 20"
    assert rows[-1]["refused"] == "edits refused line 2 M27 stimulus[1].offset"
    assert {row["edits"]: row["ab reaction"] for row in rows}["offset s20 0"] == "35"
