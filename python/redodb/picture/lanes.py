"""What the sessions of a history did: which locks they held, what they built, and what they met."""

from dataclasses import dataclass, field
from enum import Enum

from .told import Line

LISTS = ("ood", "targets", "sources")


class Ending(Enum):
    """How a build ended."""

    DONE = "done"
    FAILED = "failed"
    OPEN = "open"


class MarkKind(Enum):
    """What a session met, beside its locks and builds."""

    REFUSED = "refused"
    BUSY = "busy"
    STALE = "stale"
    LIST = "list"
    FILE = "file"


@dataclass
class Build:
    """A build from the line of its start to that of its end, counted from 1."""

    first: int
    last: int
    ending: Ending = Ending.OPEN


@dataclass
class Hold:
    """A lock that a session held, from the line where it was granted to where it was released."""

    session: int
    target: str
    row: int
    first: int
    last: int
    builds: list[Build] = field(default_factory=list)


@dataclass(frozen=True)
class Mark:
    """What a session met at a line."""

    session: int
    line: int
    kind: MarkKind
    text: str


@dataclass
class Lanes:
    """All of a history, or of a part; what is open at its end is so up to its last line."""

    holds: list[Hold] = field(default_factory=list)
    marks: list[Mark] = field(default_factory=list)

    def sessions(self) -> list[int]:
        """Return the numbers of the sessions that did something."""
        return sorted({each.session for each in self.holds} | {each.session for each in self.marks})

    def rows(self, session: int) -> int:
        """Return how many locks the session held at once, and at least 1."""
        return max((hold.row + 1 for hold in self.holds if hold.session == session), default=1)

    def within(self, first: int, last: int) -> "Lanes":
        """Return what reaches into these lines, each hold in the lowest row that is free."""
        part = Lanes(marks=[mark for mark in self.marks if first <= mark.line <= last])
        for hold in self.holds:
            if hold.first <= last and hold.last >= first:
                row = _free_row(
                    [each for each in part.holds if each.last >= hold.first], hold.session
                )
                part.holds.append(
                    Hold(hold.session, hold.target, row, hold.first, hold.last, hold.builds)
                )
        return part


def _free_row(open_holds: list[Hold], session: int) -> int:
    used = {hold.row for hold in open_holds if hold.session == session}
    return next(row for row in range(len(used) + 1) if row not in used)


def lanes_of(lines: list[Line]) -> Lanes:
    """Return what the sessions did in these lines."""
    lanes = Lanes()
    held: dict[tuple[int, str], Hold] = {}
    for number, line in enumerate(lines, 1):
        kind = _mark(line)
        if kind is not None:
            lanes.marks.append(Mark(line.session, number, kind, line.text))
        if not line.is_refused and line.names:
            _follow(lanes, held, number, line)
    for hold in held.values():
        hold.last = len(lines)
        for build in hold.builds:
            if build.ending is Ending.OPEN:
                build.last = len(lines)
    return lanes


def _mark(line: Line) -> MarkKind | None:
    if line.is_refused:
        return MarkKind.REFUSED
    if line.reply.startswith("busy "):
        return MarkKind.BUSY
    if line.reply.startswith("stale "):
        return MarkKind.STALE
    if line.command in LISTS:
        return MarkKind.LIST
    return MarkKind.FILE if line.command in ("file", "gone") else None


def _follow(lanes: Lanes, held: dict[tuple[int, str], Hold], number: int, line: Line) -> None:
    """Follow the locks and builds of a line that was accepted."""
    key = line.session, line.names[0]
    if line.command == "lock" and line.reply.startswith("granted "):
        row = _free_row(list(held.values()), line.session)
        held[key] = Hold(line.session, line.names[0], row, number, number)
        lanes.holds.append(held[key])
    elif key not in held:
        return
    elif line.command == "start":
        held[key].builds.append(Build(number, number))
    elif line.command in ("done", "failed") and held[key].builds:
        build = held[key].builds[-1]
        build.last, build.ending = number, Ending(line.command)
    elif line.command == "unlock":
        held.pop(key).last = number
