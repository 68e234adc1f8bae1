"""Lines that are so many that redodb-live compacts its log in the midst of a conversation, and the
log then."""
from typing import Iterator

from shared.dumps import HEADER, summed
from shared.talks import HEADER as PLAIN_HEADER

PLAIN = PLAIN_HEADER.encode()
# a log whose lines have fewer bytes stays as it is, and so does one whose lines have less than so
# many times the bytes of what comes before them
LEAST, TIMES = 64 << 20, 64
# a line that gives a name of this length a file, and how many of these are reason enough
NAME = 177
SIZE = len(f"1 file {'a' * NAME} {'0' * 64} => ok\n")
ENOUGH = LEAST // SIZE

Files = dict[str, str]


def named(number: int) -> str:
    return f"{number:0{NAME}}"


def line_of(name: str, stamp: str) -> str:
    return f"1 file {name} {stamp} => ok\n"


def again(count: int) -> Iterator[tuple[str, str]]:
    """One file changes so many times."""
    return ((named(0), "12"[number % 2] * 64) for number in range(count))


def others(count: int) -> Iterator[tuple[str, str]]:
    """So many names get a file each."""
    return ((named(number), "0" * 64) for number in range(count))


def text_of(files: Iterator[tuple[str, str]]) -> str:
    return "".join(line_of(name, stamp) for name, stamp in files)


def files_after(text: str, files: Files | None = None) -> Files:
    """The files of names after these lines, in the order in which the names became known."""
    known = dict(files or {})
    for line in text.splitlines():
        _, _, name, stamp, *_ = line.split(" ")
        known[name] = stamp
    return known


def compacted(files: Files) -> bytes:
    """A log that has a dump of these names, of which nothing but a file is known."""
    body = "".join(f"{name} {stamp}\n" for name, stamp in files.items())
    return HEADER + summed(len(files), body.encode())
