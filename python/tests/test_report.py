"""The report: what stands in it, that it loads nothing, and that it is a function of its inputs."""

import hashlib
import re
from html.parser import HTMLParser

import pytest
from conftest import TOP

from chainlat.report import report

EXAMPLES = ["engine", "chassis", "robot"]


class Page(HTMLParser):
    """Counts the elements of a page, and checks that each that is opened is closed."""

    EMPTY = {"meta", "br", "link", "img"}

    def __init__(self, text: str) -> None:
        super().__init__()
        self.found: list[tuple[str, dict[str, str | None]]] = []
        self.open: list[str] = []
        self.feed(text)

    def handle_starttag(self, tag: str, attrs: list[tuple[str, str | None]]) -> None:
        self.found.append((tag, dict(attrs)))
        if tag not in self.EMPTY:
            self.open.append(tag)

    def handle_startendtag(self, tag: str, attrs: list[tuple[str, str | None]]) -> None:
        self.found.append((tag, dict(attrs)))

    def handle_endtag(self, tag: str) -> None:
        assert self.open.pop() == tag


@pytest.fixture(scope="module", params=EXAMPLES)
def text(request: pytest.FixtureRequest, program: str) -> str:
    return report(TOP / "examples" / request.param / f"{request.param}.toml", date="2026-01-02")


def test_it_loads_nothing_and_has_no_script(text: str) -> None:
    page = Page(text)
    assert page.open == []
    assert not {tag for tag, _ in page.found} & {"script", "link", "img", "iframe", "object", "embed"}
    for _, attributes in page.found:
        assert all((attributes.get(name) or "#").startswith("#") for name in ("href", "src", "xlink:href"))
    assert "@import" not in text and "url(" not in text


def test_headings_names_and_places_are_as_a_screen_reader_wants_them(text: str) -> None:
    page = Page(text)
    levels = [int(tag[1]) for tag, _ in page.found if re.fullmatch("h[1-6]", tag)]
    assert levels[0] == 1 and levels.count(1) == 1
    assert all(after - before <= 1 for before, after in zip(levels, levels[1:]))
    names = [attributes["id"] for _, attributes in page.found if "id" in attributes]
    assert len(names) == len(set(names))
    for tag, attributes in page.found:
        if (attributes.get("href") or "").startswith("#"):
            assert (attributes["href"] or "")[1:] in names
        if attributes.get("role") in ("img", "region"):
            assert attributes.get("aria-label")
    tables = sum(tag == "table" for tag, _ in page.found)
    assert tables == sum(tag == "caption" for tag, _ in page.found) > 0


def test_it_says_what_was_analysed(program: str) -> None:
    path = TOP / "examples" / "engine" / "engine.toml"
    text = report(path, date="2026-01-02")
    assert hashlib.sha256(path.read_bytes()).hexdigest() in text
    assert "2026-01-02" in text and "chainlat 1.0.0" in text
    assert "1 broken, 1 unshown, 15 met" in text
    assert "<td class=\"number\">70,599</td><td class=\"number\">100,000</td><td class=\"number\">29,401</td>" in text
    assert report(path, date="2026-01-02") == text


def test_a_name_is_a_text_and_no_markup(program: str) -> None:
    assert "<b>" not in report(TOP / "crates" / "chainlat" / "data" / "two.toml", title="<b>two</b>").split("<body>")[1]


def colours() -> list[tuple[str, str, str]]:
    """The colours of texts, each with what lies behind it: light and dark."""
    style = (TOP / "python" / "src" / "chainlat" / "report" / "page.css").read_text()
    found = []
    for rules in re.findall(r":root \{(.*?)\}", style, re.S):
        named = dict(re.findall(r"--(\w+): (#[0-9a-f]+)", rules))
        found += [
            (named[name], named[back], f"{name} on {back}")
            for name in ("text", "faint", "link", "met", "broken", "unshown")
            for back in ("back", "soft")
        ]
    return found


def luminance(colour: str) -> float:
    """The relative luminance of a colour, as the guidelines for accessible content define it."""
    digits = colour[1:] if len(colour) == 7 else "".join(2 * digit for digit in colour[1:])
    parts = [int(digits[at:at + 2], 16) / 255 for at in (0, 2, 4)]
    red, green, blue = (part / 12.92 if part <= 0.04045 else ((part + 0.055) / 1.055) ** 2.4 for part in parts)
    return 0.2126 * red + 0.7152 * green + 0.0722 * blue


@pytest.mark.parametrize(("text", "back", "name"), colours(), ids=lambda it: it)
def test_each_text_has_the_contrast_that_is_asked(text: str, back: str, name: str) -> None:
    lighter, darker = sorted((luminance(text), luminance(back)), reverse=True)
    assert (lighter + 0.05) / (darker + 0.05) >= 4.5
