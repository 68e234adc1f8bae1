"""Replies as dataclasses and enums, and how they are read from the server's answers.

Names are bytes, as names.name_of returns them; stamps and digests are text.
"""
from __future__ import annotations

from collections.abc import Iterator
from dataclasses import dataclass
from enum import Enum
from typing import NoReturn

from .errors import FaultError, ProtocolError, RefusedError


class Refusal(Enum):
    """Why the database refuses a command."""

    NOT_LOCKED = "not-locked"
    BUILDING = "building"
    NOT_BUILDING = "not-building"
    SELF = "self"
    EXISTS = "exists"


class FaultWord(Enum):
    """What is wrong with a request. The last six are the server's own words."""

    BAD_SESSION = "bad-session"
    LINE_TOO_LONG = "line-too-long"
    BAD_BYTE = "bad-byte"
    UNKNOWN_COMMAND = "unknown-command"
    WRONG_WORDS = "wrong-words"
    TOO_MANY_NAMES = "too-many-names"
    BAD_NAME = "bad-name"
    BAD_STAMP = "bad-stamp"
    BAD_HEX = "bad-hex"
    WORN = "worn"
    MEMORY = "memory"
    BAD_ID = "bad-id"
    BAD_GROUP = "bad-group"
    NOT_WAITING = "not-waiting"


class Reason(Enum):
    """Why a target is out of date."""

    BUILDING = "building"
    FAILED = "failed"
    EDITED = "edited"
    ALWAYS = "always"
    APPEARED = "appeared"
    CHANGED = "changed"


class State(Enum):
    """The state of a name. An idle one is no target."""

    IDLE = "idle"
    BUILDING = "building"
    BUILT = "built"
    FAILED = "failed"


@dataclass(frozen=True, slots=True)
class Granted:
    """The lock was granted, the number-th time for this name."""

    number: int


@dataclass(frozen=True, slots=True)
class Busy:
    """The lock is held; number is that of the grant in force."""

    number: int


@dataclass(frozen=True, slots=True)
class Ring:
    """The wait can't end: each of the names needs the next one, and the last is the first again."""

    names: tuple[bytes, ...]


@dataclass(frozen=True, slots=True)
class Forgotten:
    """The wait was given up by `forget`."""


@dataclass(frozen=True, slots=True)
class Names:
    """A list of names, sorted by their bytes, each once."""

    names: tuple[bytes, ...]

    def __iter__(self) -> Iterator[bytes]:
        return iter(self.names)

    def __len__(self) -> int:
        return len(self.names)

    def __contains__(self, name: object) -> bool:
        return name in self.names


@dataclass(frozen=True, slots=True)
class Why:
    """Why the target chain[0] is out of date.

    chain[0] depends on chain[1], and so on; the last one has the reason itself. name is the name
    that changed or appeared; for all other reasons it is the last one of the chain.
    """

    reason: Reason
    name: bytes
    chain: tuple[bytes, ...]


@dataclass(frozen=True, slots=True)
class Deps:
    """The rows of a target: on names that it was built of, on those that weren't there, always."""

    changed: tuple[bytes, ...]
    created: tuple[bytes, ...]
    always: bool


@dataclass(frozen=True, slots=True)
class Users:
    """The targets with rows on a name: built of it, or while it wasn't there."""

    changed: tuple[bytes, ...]
    created: tuple[bytes, ...]


@dataclass(frozen=True, slots=True)
class NameState:
    """A name's state, the sessions that build it and hold its lock, and its file stamp."""

    state: State
    builder: int | None
    holder: int | None
    stamp: str | None


@dataclass(frozen=True, slots=True)
class Known:
    """A name, its state and file stamp, how often it was built, the stamp that its last done gave,
    and the digest of its present build."""

    name: bytes
    state: State
    stamp: str | None
    builds: int
    done: str | None
    digest: str | None


_NO_NAMES = Names(())


def read_ok(answer: bytes, request: bytes) -> None:
    """Read `ok`. All functions here raise RefusedError and FaultError for such answers."""
    if answer != b"ok":
        _raise(answer, request)


def read_count(answer: bytes, request: bytes) -> int:
    """Read `ok K`, the answer to `look`."""
    return _number(_rest(answer, b"ok", request), answer)


def read_lock(answer: bytes, request: bytes) -> Granted | Busy:
    """Read the answer to `lock`."""
    word, _, number = answer.partition(b" ")
    if word == b"busy":
        return Busy(_number(number, answer))
    return Granted(_number(_rest(answer, b"granted", request), answer))


def read_wait(answer: bytes, request: bytes) -> Granted | Ring | Forgotten:
    """Read the answer to `wait`."""
    if answer.startswith(b"ring "):
        return Ring(tuple(answer.split(b" ")[1:]))
    if answer == b"forgotten":
        return Forgotten()
    return Granted(_number(_rest(answer, b"granted", request), answer))


def read_forget(answer: bytes, request: bytes) -> bool:
    """Read the answer to `forget`: False if the wait was answered before."""
    if answer == b"fault " + FaultWord.NOT_WAITING.value.encode():
        return False
    read_ok(answer, request)
    return True


def read_made(answer: bytes, request: bytes) -> str | None:
    """Read `made STAMP`: None if a target was built without a file, or never."""
    stamp = _rest(answer, b"made", request)
    return None if stamp == b"-" else stamp.decode()


def read_stale(answer: bytes, request: bytes) -> Names:
    """Read the answer to `ifchange`: the stale ones of its names, of which there may be none."""
    if answer == b"ok":
        return _NO_NAMES
    return Names(tuple(_rest(answer, b"stale", request).split(b" ")))


def read_digest(answer: bytes, request: bytes) -> str:
    """Read the answer to `stamp`: 40 hexadecimal digits."""
    return _rest(answer, b"stamped", request).decode()


def read_names(answer: bytes, request: bytes) -> Names:
    """Read the answer to a request for a list of names, which begins with its word."""
    rest = _rest(answer, request.partition(b" ")[0], request)
    return Names(tuple(rest.split(b" ")) if rest else ())


def read_why(answer: bytes, request: bytes) -> Why | None:
    """Read the answer to `why`: None if the target isn't out of date."""
    if answer == b"clean":
        return None
    reason, *names = answer.split(b" ")
    if len(names) < 2:
        _raise(answer, request)
    try:
        return Why(Reason(reason.decode()), names[0], tuple(names[1:]))
    except ValueError:
        _raise(answer, request)


def read_deps(answer: bytes, request: bytes) -> Deps:
    """Read the answer to `deps`."""
    words = answer.split(b" ")
    if words[0] != b"change" or len(words) < 6:
        _raise(answer, request)
    after = 2 + _number(words[1], answer)
    if words[after : after + 1] != [b"created"] or words[-2:] not in (
        [b"always", b"0"],
        [b"always", b"1"],
    ):
        _raise(answer, request)
    return Deps(tuple(words[2:after]), tuple(words[after + 2 : -2]), words[-1] == b"1")


def read_users(answer: bytes, request: bytes) -> Users:
    """Read the answer to `users`."""
    words = answer.split(b" ")
    if words[0] != b"change" or len(words) < 4:
        _raise(answer, request)
    after = 2 + _number(words[1], answer)
    created = words[after + 2 :]
    if words[after : after + 2] != [b"created", b"%d" % len(created)]:
        _raise(answer, request)
    return Users(tuple(words[2:after]), tuple(created))


def read_state(answer: bytes, request: bytes) -> NameState:
    """Read the answer to `state`."""
    words = answer.split(b" ")
    builder = _number(words.pop(1), answer) if words[0] == b"building" and len(words) == 6 else None
    if len(words) != 5 or words[1] != b"lock" or words[3] != b"file":
        _raise(answer, request)
    try:
        state = State(words[0].decode())
    except ValueError:
        _raise(answer, request)
    holder = None if words[2] == b"-" else _number(words[2], answer)
    return NameState(state, builder, holder, None if words[4] == b"-" else words[4].decode())


def read_known(answer: bytes, request: bytes) -> tuple[Known, ...]:
    """Read the answer to `names`."""
    count, *words = answer.split(b" ")
    if not count.isdigit() or len(words) != 6 * int(count):
        _raise(answer, request)
    try:
        return tuple(_known(words[at : at + 6]) for at in range(0, len(words), 6))
    except ValueError:
        _raise(answer, request)


def _known(words: list[bytes]) -> Known:
    name, stamp, state, builds, done, digest = words
    stamps = [None if word == b"-" else word.decode() for word in (stamp, done, digest)]
    return Known(name, State(state.decode()), stamps[0], int(builds), stamps[1], stamps[2])


def _rest(answer: bytes, word: bytes, request: bytes) -> bytes:
    """Return the text after the first word, which has to be word."""
    first, _, rest = answer.partition(b" ")
    if first != word:
        _raise(answer, request)
    return rest


def _number(digits: bytes, answer: bytes) -> int:
    if not digits.isdigit():
        raise ProtocolError(f"not a number in the answer: {answer!r}")
    return int(digits)


def _raise(answer: bytes, request: bytes) -> NoReturn:
    """Raise what an answer says that isn't the expected one."""
    words = answer.decode(errors="replace").split(" ")
    try:
        if words[0] == "refused":
            name = words[2].encode() if len(words) > 2 else None
            raise RefusedError(Refusal(words[1]), name, request)
        if words[0] == "fault":
            raise FaultError(FaultWord(words[1]), request)
    except (ValueError, IndexError):
        pass
    raise ProtocolError(f"not an answer to {request!r}: {answer!r}")
