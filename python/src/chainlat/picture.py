"""Pictures of runs, which a notebook shows."""

from __future__ import annotations

import json
import re
from dataclasses import dataclass
from typing import TYPE_CHECKING, ClassVar, Self

from .answer import frame_of
from .errors import UnknownLine

if TYPE_CHECKING:
    import pandas

_SVG = re.compile(r'<svg xmlns="http://www\.w3\.org/2000/svg" width="(\d+)" height="(\d+)" viewBox="0 0 \d+ \d+">')
_TITLE = re.compile(r"<title>chainlat: ticks (\d+) to (\d+) of (\d+)</title>")


@dataclass(frozen=True)
class Picture:
    """A picture of a run from the tick `start` to the tick `end`, of `ticks`, as SVG; `width` and `height` in pixels."""

    svg: str
    start: int
    end: int
    ticks: int
    width: int
    height: int
    COMMAND: ClassVar[str] = "draw"

    @classmethod
    def read(cls, text: str) -> Self:
        """Reads a picture. Raises `UnknownLine` where it doesn't begin or end as one."""
        first, title, *_ = [*text.split("\n", 2), "", ""]
        size, said = _SVG.fullmatch(first), _TITLE.fullmatch(title)
        if size is None:
            raise UnknownLine(1, first, "wanted the first line of a picture")
        if said is None:
            raise UnknownLine(2, title, "wanted the title of a picture")
        if not text.endswith("</svg>\n"):
            raise UnknownLine(text.count("\n") + 1, text.rsplit("\n", 2)[-1], "wanted </svg> at the end")
        start, end, ticks = map(int, said.groups())
        return cls(text, start, end, ticks, int(size[1]), int(size[2]))

    def __str__(self) -> str:
        return self.svg

    def __bytes__(self) -> bytes:
        return self.svg.encode()

    def _repr_svg_(self) -> str:
        return self.svg

    def to_json(self) -> str:
        """The picture as JSON, by the schema `schema/draw.schema.json`."""
        return json.dumps({"answer": self.COMMAND, **vars(self)}, indent=2) + "\n"

    def to_frame(self) -> pandas.DataFrame:
        """One row: the window and the size of the picture."""
        return frame_of([{name: value for name, value in vars(self).items() if name != "svg"}])
