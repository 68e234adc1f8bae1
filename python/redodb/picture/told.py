"""Reading a history or a log: what happened, line by line."""

import os
import re
from dataclasses import dataclass

from ..errors import RedodbError

_LOG = b"redodb-log 1\n"
_COMPACTED = b"redodb-log 2\n"
_STATE = re.compile(rb"state [0-9]{1,8} ([0-9]{1,18}) [0-9a-f]{40}")
_HISTORY = b"history "


class PictureError(RedodbError):
    """There is nothing to draw a picture of; the text is the cause, in one line."""


@dataclass(frozen=True)
class Line:
    """One line of a history: a command of a session, and the database's reply."""

    session: int
    command: str
    names: tuple[str, ...]
    """The words after the command."""
    reply: str

    @property
    def is_refused(self) -> bool:
        return self.reply.startswith("refused ")

    @property
    def text(self) -> str:
        return " ".join([self.command, *self.names]) + f" => {self.reply}"


def read_lines(path: bytes, *, from_nothing: bool = False) -> list[Line]:
    """Return the lines of a history, or the whole lines of a log, which may be in use.

    Of a log that begins with a state these are the lines after it. Raises PictureError if the
    file is neither, if a line is none of a history, or if the log begins with a state though
    the lines are wanted from nothing on; OSError if the file can't be read.
    """
    with open(path, "rb") as file:
        text = file.read()
    if text.startswith(_COMPACTED) and from_nothing:
        raise PictureError(f"{os.fsdecode(path)}: it begins with a state")
    return [_line(path, number, line) for number, line in enumerate(_lines(path, text), 1)]


def _lines(path: bytes, text: bytes) -> list[bytes]:
    first, _, rest = text.partition(b"\n")
    if text.startswith(_LOG):
        return rest.split(b"\n")[:-1]
    if text.startswith(_COMPACTED):
        return _after_state(path, rest).split(b"\n")[:-1]
    if not first.startswith(_HISTORY) or not first.removeprefix(_HISTORY).isdigit():
        raise PictureError(f"{os.fsdecode(path)}: no history and no log")
    count, lines = int(first.removeprefix(_HISTORY)), rest.split(b"\n")[:-1]
    if len(lines) < count:
        raise PictureError(f"{os.fsdecode(path)}: cut")
    return lines[:count]


def _after_state(path: bytes, text: bytes) -> bytes:
    """Return what follows the state that a text begins with."""
    first, end, rest = text.partition(b"\n")
    found = _STATE.fullmatch(first)
    if found is None or not end:
        raise PictureError(f"{os.fsdecode(path)}: line 2 is none of a log")
    length = int(found[1])
    if len(rest) < length:
        raise PictureError(f"{os.fsdecode(path)}: cut")
    return rest[length:]


def _line(path: bytes, number: int, line: bytes) -> Line:
    before, arrow, reply = line.partition(b" => ")
    words = before.decode("ascii", "replace").split(" ")
    if not arrow or len(words) < 2 or not words[0].isdigit():
        raise PictureError(f"{os.fsdecode(path)}: line {number} is none of a history")
    return Line(int(words[0]), words[1], tuple(words[2:]), reply.decode("ascii", "replace"))
