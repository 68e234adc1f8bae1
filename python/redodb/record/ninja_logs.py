"""Reading ninja's own files: the deps log and the build log."""

import os
import struct
from dataclasses import dataclass

from .graph import RecordError

_DEPS_HEADER = b"# ninjadeps\n"
_DEPS_VERSION = 4
_LOG_HEADER = b"# ninja log v"
_LOG_VERSIONS = (5, 6, 7)


@dataclass(frozen=True)
class Read:
    """What an output's last build read, and the time of the output then, in nanoseconds."""

    time: int
    inputs: list[bytes]


def _bytes_of(path: bytes) -> bytes | None:
    """Return what the file holds; None if there is none."""
    try:
        with open(path, "rb") as file:
            return file.read()
    except FileNotFoundError:
        return None
    except OSError as error:
        raise RecordError(f"{os.fsdecode(path)}: {error.strerror}") from error


def read_deps_log(path: bytes) -> dict[bytes, Read]:
    """Return what each output read, by the log's last record of it; nothing if there is no log.

    A record that was torn at the end is left out, as ninja does. Raises RecordError for a log of
    another version.
    """
    text = _bytes_of(path)
    if text is None:
        return {}
    start = len(_DEPS_HEADER) + 4
    if not text.startswith(_DEPS_HEADER) or text[start - 4 : start] != struct.pack(
        "<i", _DEPS_VERSION
    ):
        raise RecordError(f"{os.fsdecode(path)}: no deps log of version {_DEPS_VERSION}")
    paths: list[bytes] = []
    read: dict[bytes, Read] = {}
    for is_deps, record in _records(text, start):
        if not is_deps:
            paths.append(record[:-4].rstrip(b"\0"))
            continue
        output, time = struct.unpack_from("<iQ", record)
        numbers = struct.unpack_from(f"<{(len(record) - 12) // 4}i", record, 12)
        if max((output, *numbers)) >= len(paths):
            break
        read[paths[output]] = Read(time, [paths[number] for number in numbers])
    return read


def _records(text: bytes, at: int) -> list[tuple[bool, bytes]]:
    """Return the whole records from this place on: whether each is of deps, and its bytes."""
    found = []
    while at + 4 <= len(text):
        (size,) = struct.unpack_from("<I", text, at)
        is_deps, size = size >> 31 == 1, size & 0x7FFFFFFF
        record = text[at + 4 : at + 4 + size]
        if len(record) < size or size < (12 if is_deps else 5):
            break
        found.append((is_deps, record))
        at += 4 + size
    return found


def read_build_log(path: bytes) -> dict[bytes, int]:
    """Return the time that the log keeps of each output, in nanoseconds; nothing without a log.

    Raises RecordError for a log of another version.
    """
    text = _bytes_of(path)
    if text is None:
        return {}
    header, _, lines = text.partition(b"\n")
    version = header.removeprefix(_LOG_HEADER)
    if not header.startswith(_LOG_HEADER) or version not in [
        b"%d" % known for known in _LOG_VERSIONS
    ]:
        raise RecordError(f"{os.fsdecode(path)}: no build log of a version from 5 to 7")
    times = {}
    for line in lines.split(b"\n"):
        words = line.split(b"\t")
        if len(words) == 5 and words[2].isdigit():
            times[words[3]] = int(words[2])
    return times
