"""Models as documents: what is changed stands in the text, and all else stays."""

import re
import tomllib
from pathlib import Path

import pytest
from conftest import ROWS, TOP
from hypothesis import HealthCheck, given, settings
from hypothesis import strategies as st

import chainlat
from chainlat import Model
from chainlat.model.edits import ASKING, EDITS

ENGINE = TOP / "examples" / "engine" / "engine.toml"
TWO = TOP / "crates" / "chainlat" / "data" / "two.toml"
BASE = """\
# all kinds of entries
format = "chainlat"
version = 2  # for the burst

core = [{ name = "c0" }, { name = "c1" }]   # two cores
label = [{ name = "x" }, { name = "y" }]

[[stimulus]]            # ten
name = "s10"
kind = "periodic"
period = 10

[[stimulus]]
name = "s20"
kind = "periodic"
period = 20

[[stimulus]]
name = "e"
kind = "sporadic"
least = 40
greatest = 90

[[stimulus]]
name = "f"
kind = "burst"
period = 60
count = 2
distance = 15

# the first task
[[task]]
name = "A"
core = "c0"
stimulus = "s10"        # ten
priority = 2
access = "implicit"

# its runnable
[[task.runnable]]
name = "a"
least = 2               # measured
greatest = 3
writes = ["x"]

[[task]]
name = "B"
core = "c1"
stimulus = "s20"
priority = 1
access = "implicit"
deadline = 18
runnable = [{ name = "b", least = 4, greatest = 5, reads = ["x"] }]   # in one line

[[task]]
name = "S"
core = "c0"
stimulus = "e"
priority = 1
access = "explicit"

[[task.runnable]]
name = "s"
least = 1
greatest = 2
whole = true

[[task]]
name = "F"
core = "c1"
stimulus = "f"
priority = 9
access = "timed"

[[task.runnable]]
name = "f"
least = 1
greatest = 1

[[chain]]
name = "ab"
runnables = ["a", "b"]
labels = ["x"]

[[requirement]]
name = "r"
chain = "ab"
kind = "reaction"
most = 40   # and no more
"""

NO_TEXTS = ("two_cr.toml", "two_latin.toml", "two_utf16.toml")
models = sorted(it for it in ROWS.glob("*.toml") if it.stat().st_size < 20000 and it.name not in NO_TEXTS)


@pytest.mark.parametrize("path", [ENGINE, TWO, *models], ids=lambda path: path.name)
def test_a_document_is_written_as_it_was_read(path: Path) -> None:
    assert bytes(Model.load(path)) == path.read_bytes().removeprefix(b"\xef\xbb\xbf")


@pytest.mark.parametrize("name", NO_TEXTS)
def test_what_is_no_toml_is_an_error_that_names_the_file(name: str) -> None:
    with pytest.raises(chainlat.ModelError, match=name):
        Model.load(ROWS / name)


def test_a_number_is_changed_and_its_comment_stays() -> None:
    model = Model.read(BASE)
    model.runnable("a").greatest = 4
    model.stimulus("s10").period = 20
    model.task("A").deadline = 9
    expected = BASE.replace("greatest = 3", "greatest = 4").replace("period = 10", "period = 20")
    expected = expected.replace('priority = 2\naccess = "implicit"\n', 'priority = 2\naccess = "implicit"\ndeadline = 9\n')
    assert str(model) == expected


def test_a_key_that_is_set_to_none_is_taken_out() -> None:
    model = Model.read(BASE)
    model.task("B").deadline = None
    assert str(model) == BASE.replace("deadline = 18\n", "")


def test_a_default_that_is_set_writes_nothing() -> None:
    model = Model.read(BASE)
    model.stimulus("s10").offset = 0
    model.runnable("a").whole = False
    assert str(model) == BASE


@pytest.mark.parametrize(
    ("change", "said"),
    [
        (lambda model: setattr(model.task("A"), "priority", -1), "task A: priority: wanted a whole number from 0"),
        (lambda model: setattr(model.task("A"), "priority", True), "task A: priority: wanted a whole number"),
        (lambda model: setattr(model.task("A"), "access", "late"), "wanted one of explicit, implicit, timed"),
        (lambda model: setattr(model.runnable("a"), "least", 0), "wanted a whole number from 1 to 1000000000000"),
        (lambda model: setattr(model.task("A"), "core", "a core"), "wanted a name"),
        (lambda model: model.task("Z"), "unknown task Z: known are A B S F"),
        (lambda model: model.add_chain("z", "ab"), "wanted a list of names"),
    ],
)
def test_a_value_that_a_key_cannot_have_is_refused(change: object, said: str) -> None:
    model = Model.read(BASE)
    with pytest.raises(chainlat.ModelError, match=re.escape(said)):
        change(model)  # type: ignore[operator]
    assert str(model) == BASE


def test_a_model_is_built_by_a_program(program: str) -> None:
    model = Model()
    model.add_core("c0")
    model.add_core("c1")
    model.add_periodic("s10", 10)
    model.add_periodic("s20", 20)
    model.add_label("x")
    model.add_task("A", "c0", "s10", 2, "implicit", [{"name": "a", "least": 2, "greatest": 3, "writes": ["x"]}])
    model.add_task("B", "c1", "s20", 1, "implicit", [{"name": "b", "least": 4, "greatest": 5, "reads": ["x"]}])
    model.add_chain("ab", ["a", "b"], ["x"])
    assert str(chainlat.migrate(model)) == str(chainlat.migrate(TWO))


def test_a_list_between_braces_gets_its_new_entry_there() -> None:
    model = Model.read(BASE)
    model.add_label("z")
    assert 'label = [{ name = "x" }, { name = "y" }, {name = "z"}]\n' in str(model)
    assert [it["name"] for it in tomllib.loads(str(model))["label"]] == ["x", "y", "z"]


EXAMPLES = """\
range b 4 6
whole b yes
whole s no
period s10 20
offset s20 12
jitter s10 3
distances e 46 99
burst f 90 3 5
deadline A 8
deadline B *
swap A S
priorities A 1 S 2
move B c0 7
access A timed
task C c1 s10 7 explicit 9 c 1 2 x y d 1 1 * *
task C c1 s10 7 explicit * c 1 2 * *
drop-task S
chain aa a *
drop-requirement r
requirement q ab age 35
requirement q ab delay 35
requirement r ab delay 35
requirement r ab age 36
tighten
verify
report
"""


@pytest.mark.parametrize("line", EXAMPLES.splitlines())
def test_each_line_of_a_list_is_made_as_the_program_makes_it(program: str, line: str) -> None:
    same_as_the_program(BASE, f"chainlat edits 2\n{line}\n")


def test_the_lines_are_those_of_the_page() -> None:
    page = (TOP / "docs" / "edits.md").read_text().split("## The lines")[1].split("## Statuses")[0]
    words = {word for row in re.findall(r"^\| (`.*?) \|", page, re.M) for word in re.findall(r"(?:^|, )`([a-z-]+)", row)}
    assert words == {*EDITS, *ASKING}


def test_a_chain_goes_once_its_requirement_has_gone(program: str) -> None:
    same_as_the_program(BASE, "chainlat edits 2\ndrop-requirement r\ndrop-chain ab\ndrop-task A\ndrop-task B\n")


def test_comments_stay_where_they_are(program: str) -> None:
    model = Model.load(ENGINE)
    model.apply("chainlat edits 2\n# its own core\nmove Monitor Comms 2\n")
    before, after = ENGINE.read_text().splitlines(), str(model).splitlines()
    changed = [(old, new) for old, new in zip(before, after, strict=True) if old != new]
    assert changed == [('core = "Crank"', 'core = "Comms"'), ("priority = 1", "priority = 2")]


def same_as_the_program(text: str, edits: str) -> bool:
    """Makes a list in the document and by the program. Says whether the program makes it."""
    model = Model.read(text)
    try:
        wanted = chainlat.apply(text, edits)
    except chainlat.EditsRefused as refused:
        with pytest.raises(chainlat.EditsRefused) as caught:
            model.apply(edits)
        assert caught.value.line == refused.line
        assert str(model) == text
        return False
    model.apply(edits)
    assert str(chainlat.migrate(model)) == str(wanted)
    comments = re.findall(r"#.*", text)
    kept = re.findall(r"#.*", str(model))
    if "drop-" not in edits and "deadline B *" not in edits:
        assert kept == comments
    return True


def pick(*words: str) -> st.SearchStrategy[str]:
    return st.sampled_from(words)


def numbers(least: int, most: int) -> st.SearchStrategy[str]:
    return st.integers(least, most).map(str)


def line(*parts: st.SearchStrategy[str] | str) -> st.SearchStrategy[str]:
    return st.tuples(*(st.just(part) if isinstance(part, str) else part for part in parts)).map(" ".join)


TASKS, RUNNABLES, STIMULI = pick("A", "B", "S", "F", "C"), pick("a", "b", "s", "f", "c"), pick("s10", "s20", "e", "f")
CORES, ACCESSES = pick("c0", "c1"), pick("explicit", "implicit", "timed")
PAIRS = {
    "range": st.tuples(RUNNABLES, st.integers(1, 4), st.integers(0, 4)).map(
        lambda it: f"range {it[0]} {it[1]} {it[1] + it[2]}"
    ),
    "whole": line("whole", RUNNABLES, pick("yes", "no")),
    "period": line("period", pick("s10", "s20"), numbers(8, 40)),
    "offset": line("offset", pick("s10", "s20", "f"), numbers(0, 9)),
    "jitter": line("jitter", pick("s10", "s20"), numbers(0, 5)),
    "distances": st.tuples(st.integers(20, 50), st.integers(0, 60)).map(
        lambda it: f"distances e {it[0]} {it[0] + it[1]}"
    ),
    "burst": line("burst f", numbers(40, 90), numbers(2, 4), numbers(5, 15)),
    "deadline": line("deadline", TASKS, numbers(6, 18) | st.just("*")),
    "swap": line("swap", TASKS, TASKS),
    "priorities": line("priorities", TASKS, numbers(0, 12), TASKS, numbers(0, 12)) | line("priorities", TASKS, numbers(0, 9)),
    "move": line("move", TASKS, CORES, numbers(0, 12)),
    "access": line("access", TASKS, ACCESSES),
    "task": line("task C", CORES, STIMULI, numbers(3, 12), ACCESSES, numbers(5, 9) | st.just("*"), "c 1 2", pick("x", "*", "x,y"), pick("y", "*"))
    | line("task C", CORES, STIMULI, numbers(3, 12), ACCESSES, "* c 1 2 x y d 1 3 y *"),
    "drop-task": line("drop-task", TASKS),
    "chain": pick("chain ac a,c x", "chain aa a *", "chain cd c,d y", "chain b b *"),
    "drop-chain": line("drop-chain", pick("ab", "aa", "ac")),
    "requirement": line("requirement", pick("r", "q"), pick("ab", "aa"), pick("reaction", "age", "reduced", "delay"), numbers(0, 60)),
    "drop-requirement": line("drop-requirement", pick("r", "q")),
    "report": pick("report", "tighten", "verify", "# a comment", ""),
}


def test_lists_of_every_line_are_drawn() -> None:
    assert {*PAIRS, "tighten", "verify"} == {*EDITS, *ASKING}


@settings(max_examples=400, deadline=None, suppress_health_check=[HealthCheck.function_scoped_fixture])
@given(st.sampled_from([BASE, TWO.read_text()]), st.lists(st.one_of(*PAIRS.values()), max_size=6))
def test_a_drawn_list_is_made_as_the_program_makes_it(program: str, text: str, lines: list[str]) -> None:
    same_as_the_program(text, "".join(f"{it}\n" for it in ["chainlat edits 2", *lines]))


@pytest.mark.parametrize("word", sorted(PAIRS))
def test_a_drawn_line_of_each_kind(program: str, word: str) -> None:
    @settings(max_examples=30, deadline=None)
    @given(PAIRS[word])
    def one(drawn: str) -> None:
        same_as_the_program(BASE, f"chainlat edits 2\n{drawn}\n")

    one()
