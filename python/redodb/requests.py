"""The requests of a client: their lines, and how the answers to them are read."""
from __future__ import annotations

from collections.abc import Callable, Iterable
from functools import lru_cache
from typing import Generic, TypeVar

from . import replies
from .errors import BadName
from .names import is_name
from .replies import Busy, Deps, Forgotten, Granted, Known, Names, NameState, Ring, Users, Why

Name = bytes | str
Answer = TypeVar("Answer")

TOP_LEVEL = b"-"
"""The name instead of the one that is built, if a wait is for none."""

_MOST_NAMES = 64
_MOST_BYTES = 7_000
_MOST_KEPT = 1 << 16  # names, of which a tree may have more


class Request(Generic[Answer]):
    """The lines of a request.

    read reads the answer to each, which is the answer if there is one line; join makes one of
    several, or of none.
    """

    __slots__ = ("lines", "read", "join")

    def __init__(
        self,
        lines: tuple[bytes, ...],
        read: Callable[[bytes, bytes], Answer],
        join: Callable[[list[Answer]], Answer],
    ) -> None:
        self.lines = lines
        self.read = read
        self.join = join

    def result(self, answers: list[bytes]) -> Answer:
        """Return what the answers say. Raises RefusedError and FaultError."""
        return self.join(
            [self.read(answer, line) for answer, line in zip(answers, self.lines, strict=True)]
        )


def file(name: Name, stamp: str) -> Request[None]:
    return _one(b"file %b %b" % (_name(name), _word(stamp)), replies.read_ok)


def gone(name: Name) -> Request[None]:
    return _one(b"gone " + _name(name), replies.read_ok)


def lock(target: Name) -> Request[Granted | Busy]:
    return _one(b"lock " + _name(target), replies.read_lock)


def unlock(target: Name) -> Request[None]:
    return _one(b"unlock " + _name(target), replies.read_ok)


def start(target: Name) -> Request[None]:
    return _one(b"start " + _name(target), replies.read_ok)


def ifchange(target: Name, names: Iterable[Name]) -> Request[Names]:
    return Request(_chunks(b"ifchange " + _name(target), names), replies.read_stale, _all_names)


def ifcreate(target: Name, names: Iterable[Name]) -> Request[None]:
    return Request(_chunks(b"ifcreate " + _name(target), names), replies.read_ok, _nothing)


def always(target: Name) -> Request[None]:
    return _one(b"always " + _name(target), replies.read_ok)


def stamp(target: Name, content: bytes) -> Request[str]:
    digits = content.hex().encode() or b"-"
    return _one(b"stamp %b %b" % (_name(target), digits), replies.read_digest)


def done(target: Name, stamp: str | None) -> Request[None]:
    word = b"-" if stamp is None else _word(stamp)
    return _one(b"done %b %b" % (_name(target), word), replies.read_ok)


def failed(target: Name) -> Request[None]:
    return _one(b"failed " + _name(target), replies.read_ok)


def ood() -> Request[Names]:
    return _one(b"ood", replies.read_names)


def targets() -> Request[Names]:
    return _one(b"targets", replies.read_names)


def sources() -> Request[Names]:
    return _one(b"sources", replies.read_names)


def why(target: Name) -> Request[Why | None]:
    return _one(b"why " + _name(target), replies.read_why)


def deps(target: Name) -> Request[Deps]:
    return _one(b"deps " + _name(target), replies.read_deps)


def users(name: Name) -> Request[Users]:
    return _one(b"users " + _name(name), replies.read_users)


def state(name: Name) -> Request[NameState]:
    return _one(b"state " + _name(name), replies.read_state)


def names() -> Request[tuple[Known, ...]]:
    return _one(b"names", replies.read_known)


def wait(target: Name, parent: Name) -> Request[Granted | Ring | Forgotten]:
    return _one(b"wait %b %b" % (_name(target), _parent(parent)), replies.read_wait)


def forget(target: Name, parent: Name) -> Request[bool]:
    return _one(b"forget %b %b" % (_name(target), _parent(parent)), replies.read_forget)


def made(target: Name) -> Request[str | None]:
    return _one(b"made " + _name(target), replies.read_made)


def edited(names: Iterable[Name] | None) -> Request[Names]:
    lines = (b"edited",) if names is None else _chunks(b"edited", names)
    return Request(lines, replies.read_names, _all_names)


def late(since: int, names: Iterable[Name]) -> Request[Names]:
    return Request(_chunks(b"late %d" % since, names), replies.read_names, _all_names)


def look(names: Iterable[Name] | None) -> Request[int]:
    lines = (b"look",) if names is None else _chunks(b"look", names)
    return Request(lines, replies.read_count, sum)


def group(number: int, run: bytes = b"") -> Request[None]:
    """run is the socket of a redo that is in the environment of the group's processes.

    Then that tells the group from others, and else the moment when its leader began.
    """
    from .procfs import UNKNOWN, leader, own_namespace

    began, namespace = (UNKNOWN, own_namespace()) if run else leader(number)
    socket = run.hex().encode() or UNKNOWN
    return _one(b"group %d %b %b %b" % (number, began, namespace, socket), replies.read_ok)


def ungroup(number: int) -> Request[None]:
    return _one(b"ungroup %d" % number, replies.read_ok)


def end() -> Request[None]:
    return _one(b"end", replies.read_ok)


def _one(line: bytes, read: Callable[[bytes, bytes], Answer]) -> Request[Answer]:
    return Request((line,), read, lambda answers: answers[0])


def _chunks(command: bytes, names: Iterable[Name]) -> tuple[bytes, ...]:
    """Return lines of the command, with no more names and bytes than a line may have."""
    words = list(map(_name, names))
    whole = b" ".join([command, *words])
    if 0 < len(words) <= _MOST_NAMES and len(whole) <= _MOST_BYTES:
        return (whole,)
    lines = []
    line, count = command, 0
    for name in words:
        if count == _MOST_NAMES or count and len(line) + len(name) >= _MOST_BYTES:
            lines.append(line)
            line, count = command, 0
        line += b" " + name
        count += 1
    return (*lines, line) if count else tuple(lines)


def _all_names(answers: list[Names]) -> Names:
    return Names(tuple(sorted({name for answer in answers for name in answer})))


def _nothing(answers: list[None]) -> None:
    """Of several answers that say nothing, make one."""


def _parent(name: Name) -> bytes:
    return TOP_LEVEL if name in (TOP_LEVEL, TOP_LEVEL.decode()) else _name(name)


@lru_cache(_MOST_KEPT)
def _name(name: Name) -> bytes:
    """Return a name as bytes. The names of a build come again and again, so they are kept."""
    name = name.encode() if isinstance(name, str) else name
    if not is_name(name):
        raise BadName(f"not a name of the database: {name!r}")
    return name


def _word(stamp: str) -> bytes:
    if not (0 < len(stamp) <= 64 and stamp.isascii() and stamp.isprintable()) or " " in stamp:
        raise ValueError(f"not a file stamp: {stamp!r}")
    return stamp.encode()
