"""Reporting to the database what a tool knows, and writing its answers."""

from collections.abc import Iterable
from typing import BinaryIO

from ..conversation import Conversation
from .graph import RecordError

MOST_LINES, MOST_NAMES = 1_048_576, 65_536
"""The lines of a history that a replay takes, and the names in it. A log may have more."""

LISTING = (b"ifchange", b"ifcreate")
"""The commands whose words after the target are names."""


def answered(commands: Iterable[bytes], log: bytes | None = None) -> list[bytes]:
    """Return the lines of the history of session 1 with these commands, without its header.

    The replies are those of redodb-live, which keeps the log, if one is named. Raises
    RecordError if it answers a fault, as with too many names, and ServerError if it
    can't be asked.
    """
    words = [] if log is None else [b"--log", log]
    with Conversation(words) as database:
        lines = list(database.ask_all(b"1 " + command for command in commands))
    for line in lines:
        if b" => " not in line:
            raise RecordError(f"the database doesn't take the tree: {line.decode()}")
    return lines


def names_in(line: bytes) -> list[bytes]:
    """Return the names in the command of a history's line."""
    _, word, *rest = line.partition(b" => ")[0].split(b" ")
    return rest if word in LISTING else rest[:1]


def write_history(lines: list[bytes], out: BinaryIO) -> None:
    """Write the lines as a history. Raises RecordError if these are more than a replay takes."""
    if len(lines) > MOST_LINES:
        raise RecordError(f"the history has {len(lines)} lines, over {MOST_LINES}")
    names = {name for line in lines for name in names_in(line)}
    if len(names) > MOST_NAMES:
        raise RecordError(f"the history has {len(names)} names, over {MOST_NAMES}")
    out.write(b"history %d\n" % len(lines))
    out.writelines(line + b"\n" for line in lines)
