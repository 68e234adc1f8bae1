"""Drawing what the sessions of a history did: a lane for each, from left to right the lines."""

import xml.etree.ElementTree as ET
from dataclasses import dataclass

from .lanes import Ending, Hold, Lanes, Mark, MarkKind

LEFT, TOP, RIGHT = 90.0, 46.0, 30.0
ROW, LANE_HEAD, LANE_GAP = 18.0, 22.0, 8.0
WIDEST, NARROWEST, USUAL = 26.0, 2.0, 1500.0
LETTER = 6.6
STYLE = """
text { font: 11px sans-serif; fill: #222 }
.lane { fill: #f4f4f4 }
.lock { fill: #c9d6e8 }
.build { fill: #3b6ea5 }
.build.failed { fill: #b23b3b }
.build.open { fill: #3b6ea5; fill-opacity: 0.6 }
.refused { stroke: #d00; stroke-width: 2; fill: none }
.busy { fill: #e80 }
.stale { fill: #83c }
.list { fill: #06c }
.file { fill: #393 }
.name { paint-order: stroke; stroke: #fff; stroke-width: 2.5px }
.number { fill: #777 }
"""
LEGEND = {
    "lock": "lock held",
    "build done": "building",
    "build failed": "failed",
    "refused": "refused",
    "busy": "busy",
    "stale": "stale",
    "list": "asks a list",
    "file": "file, gone",
}
SHAPES = {
    MarkKind.REFUSED: "m-4 -4l8 8m0 -8l-8 8",
    MarkKind.BUSY: "m-4 4h8l-4 -8z",
    MarkKind.STALE: "m-4 -4h8l-4 8z",
    MarkKind.LIST: "m-4 0l4 -4l4 4l-4 4z",
    MarkKind.FILE: "m-1.5 -5h3v10h-3z",
}


@dataclass(frozen=True)
class Window:
    """The lines that the picture shows, from the first to the last, counted from 1."""

    first: int
    last: int

    @property
    def step(self) -> float:
        """The width of a line."""
        return max(NARROWEST, min(WIDEST, USUAL / max(1, self.last - self.first + 1)))

    def left(self, line: int) -> float:
        """Return where a line begins; one outside of the window begins at its edge."""
        return LEFT + self.step * (min(max(line, self.first), self.last + 1) - self.first)


class Drawing:
    """The picture of the lanes in a window."""

    def __init__(self, lanes: Lanes, window: Window) -> None:
        self.lanes = lanes.within(window.first, window.last)
        self.window = window
        self.tops: dict[int, float] = {}
        bottom = TOP
        for session in self.lanes.sessions():
            self.tops[session] = bottom
            bottom += self._height(session) + LANE_GAP
        self.width = max(window.left(window.last + 1) + RIGHT, LEFT + 100 * len(LEGEND))
        self.height = bottom + 22
        self.root = ET.Element(
            "svg",
            xmlns="http://www.w3.org/2000/svg",
            width=_number(self.width),
            height=_number(self.height),
        )

    def draw(self) -> str:
        """Return the SVG text."""
        ET.SubElement(self.root, "style").text = STYLE
        ET.SubElement(self.root, "rect", width="100%", height="100%", fill="#fff")
        self._legend()
        for session, top in self.tops.items():
            lane = self._group(self.root, "session", f"session {session}")
            self._box(lane, "lane", (0, top), (self.width, self._height(session)))
            self._text(
                lane, "label", (8, top + self._height(session) / 2 + 4), f"session {session}"
            )
            for hold in self.lanes.holds:
                if hold.session == session:
                    self._hold(lane, hold)
            for mark in self.lanes.marks:
                if mark.session == session:
                    self._mark(lane, mark)
        self._numbers()
        ET.indent(self.root, " ")
        return ET.tostring(self.root, encoding="unicode") + "\n"

    def _height(self, session: int) -> float:
        return LANE_HEAD + ROW * self.lanes.rows(session)

    def _group(self, parent: ET.Element, kind: str, title: str) -> ET.Element:
        group = ET.SubElement(parent, "g", {"class": kind})
        ET.SubElement(group, "title").text = title
        return group

    def _box(
        self, parent: ET.Element, kind: str, at: tuple[float, float], size: tuple[float, float]
    ) -> None:
        ET.SubElement(
            parent,
            "rect",
            {
                "class": kind,
                "x": _number(at[0]),
                "y": _number(at[1]),
                "width": _number(size[0]),
                "height": _number(size[1]),
            },
        )

    def _text(self, parent: ET.Element, kind: str, at: tuple[float, float], text: str) -> None:
        words = ET.SubElement(
            parent, "text", {"class": kind, "x": _number(at[0]), "y": _number(at[1])}
        )
        words.text = text

    def _legend(self) -> None:
        for number, (kind, text) in enumerate(LEGEND.items()):
            entry = self._group(self.root, "legend", text)
            left = LEFT + 100 * number
            shape = next((SHAPES[mark] for mark in MarkKind if mark.value == kind), None)
            if shape is None:
                self._box(entry, kind, (left, 12), (12, 10))
            else:
                ET.SubElement(entry, "path", {"class": kind, "d": f"M{left + 6:g} 17{shape}"})
            self._text(entry, "label", (left + 16, 21), text)

    def _hold(self, lane: ET.Element, hold: Hold) -> None:
        """Draw a lock, its builds, and its target's name if it fits."""
        bar = self._group(lane, "hold", hold.target)
        top = self.tops[hold.session] + LANE_HEAD + ROW * hold.row - 4
        left, right = self.window.left(hold.first), self.window.left(hold.last + 1)
        self._box(bar, "lock", (left, top), (right - left, ROW - 3))
        for build in hold.builds:
            if build.first <= self.window.last and build.last >= self.window.first:
                begin, end = self.window.left(build.first), self.window.left(build.last + 1)
                self._box(
                    bar, f"build {build.ending.value}", (begin, top + 1), (end - begin, ROW - 5)
                )
        if right - left > LETTER * len(hold.target):
            self._text(bar, "name", (left + 3, top + ROW - 7), hold.target)

    def _mark(self, lane: ET.Element, mark: Mark) -> None:
        group = self._group(lane, "mark", f"{mark.line}: {mark.text[:300]}")
        middle = self.window.left(mark.line) + self.window.step / 2
        height = self.tops[mark.session] + 9
        ET.SubElement(
            group,
            "path",
            {
                "class": mark.kind.value,
                "d": f"M{_number(middle)} {_number(height)}{SHAPES[mark.kind]}",
            },
        )

    def _numbers(self) -> None:
        """Write the numbers of some lines below the lanes."""
        apart = next(
            size
            for size in (1, 5, 10, 50, 100, 500, 1000)
            if size * self.window.step >= 40 or size == 1000
        )
        for line in range(self.window.first, self.window.last + 1):
            if line % apart == 0 or line == self.window.first:
                self._text(
                    self.root, "number", (self.window.left(line), self.height - 8), str(line)
                )


def _number(value: float) -> str:
    return f"{value:.1f}".removesuffix(".0")
