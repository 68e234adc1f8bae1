"""Reads session files and histories by docs/RULES.md, as bytes: their lines, or the first fault."""
import functools
import re
from typing import Callable, Iterable, NamedTuple

BYTES, COMMANDS, NAMES, LISTED, LINES, SESSIONS = 8192, 4096, 65_536, 64, 1_048_576, 64
GRANTS = 4_294_967_295

NAME = re.compile(rb"(?!#)[!-~]{1,255}")
STAMP = re.compile(rb"[!-~]{1,64}")
CONTENT = re.compile(rb"-|([0-9A-Fa-f]{2})+")
NUMBER = re.compile(rb"0|[1-9][0-9]{0,9}")
DIGEST = re.compile(rb"[0-9a-f]{40}")
OTHER_BYTE = re.compile(rb"[^ -~]")
NO_NAMES = (b"-", b"=>")


class Fault(Exception):
    """Why a text isn't read, in the words of the program."""


class Asked(NamedTuple):
    """A line of a session file."""
    is_guarded: bool
    command: str


class Told(NamedTuple):
    """A line of a history."""
    session: int
    command: str
    reply: str


class Parsed(NamedTuple):
    """The text of a command or of a reply, and the names in it."""
    text: str
    names: list[bytes]


def is_name(word: bytes) -> bool:
    return word not in NO_NAMES and NAME.fullmatch(word) is not None


def is_stamp(word: bytes) -> bool:
    return word not in NO_NAMES and STAMP.fullmatch(word) is not None


def is_stamp_or_none(word: bytes) -> bool:
    return word == b"-" or is_stamp(word)


def is_content(word: bytes) -> bool:
    return CONTENT.fullmatch(word) is not None


# what a word has to be, and the fault if it isn't
Rule = tuple[Callable[[bytes], bool], str]
A_NAME: Rule = (is_name, "bad-name")

# the words after the first one of each command that takes a fixed number of them
FIXED: dict[bytes, list[Rule]] = {
    b"file": [A_NAME, (is_stamp, "bad-stamp")],
    b"done": [A_NAME, (is_stamp_or_none, "bad-stamp")],
    b"stamp": [A_NAME, (is_content, "bad-hex")],
    **dict.fromkeys([b"gone", b"lock", b"unlock", b"start", b"always", b"failed"], [A_NAME]),
    **dict.fromkeys([b"ood", b"targets", b"sources"], []),
}


def rules_of(words: list[bytes]) -> list[Rule]:
    """What the words of a command have to be after the first one, if it may have so many."""
    first, *rest = words
    if first in (b"ifchange", b"ifcreate"):
        if len(rest) < 2:
            raise Fault("wrong-words")
        if len(rest) > 1 + LISTED:
            raise Fault("too-many-names")
        return [A_NAME] * len(rest)
    if first not in FIXED:
        raise Fault("unknown-command")
    if len(rest) != len(FIXED[first]):
        raise Fault("wrong-words")
    return FIXED[first]


# the lines of long files are much the same
@functools.lru_cache(64)
def parsed_command(text: bytes) -> Parsed:
    """A command without a guard, but for the limit on all names: questions a, and d to h."""
    if len(text) > BYTES:
        raise Fault("line-too-long")
    if OTHER_BYTE.search(text):
        raise Fault("bad-byte")
    words = text.split(b" ")
    rules = rules_of(words)
    for word, (is_right, fault) in zip(words[1:], rules):
        if not is_right(word):
            raise Fault(fault)
    if words[0] == b"stamp":
        words[2] = words[2].lower()
    names = [word for word, rule in zip(words[1:], rules) if rule is A_NAME]
    return Parsed(b" ".join(words).decode("ascii"), names)


def number_of(word: bytes, most: int) -> int | None:
    """The number that a word is, if it is at most this."""
    is_number = NUMBER.fullmatch(word) is not None and int(word) <= most
    return int(word) if is_number else None


def names_of_reply(words: list[bytes]) -> list[bytes] | None:
    """The names in a reply; None if the words are no reply."""
    match words:
        case [b"ok"] | [b"refused", b"not-locked" | b"building" | b"not-building" | b"self"]:
            return []
        case [b"granted" | b"busy", grant] if number_of(grant, GRANTS):
            return []
        case [b"stamped", digest] if DIGEST.fullmatch(digest):
            return []
        case [b"ood" | b"targets" | b"sources", *names]:
            pass
        case [b"stale", _, *_] | [b"refused", b"exists", _]:
            names = words[1:] if words[0] == b"stale" else words[2:]
        case _:
            return None
    return names if all(map(is_name, names)) else None


def parsed_reply(text: bytes) -> Parsed:
    names = names_of_reply(text.split(b" "))
    if names is None:
        raise Fault("bad-reply")
    return Parsed(text.decode("ascii"), names)


class Reader:
    """Reads lines that share their names."""

    def __init__(self) -> None:
        self.names: set[bytes] = set()
        self.commands = 0

    def know(self, names: Iterable[bytes], fault: str) -> None:
        """These names are known from now on, if there is room for them."""
        new = set(names) - self.names
        if len(self.names) + len(new) > NAMES:
            raise Fault(fault)
        self.names |= new

    def command(self, text: bytes) -> str:
        parsed = parsed_command(text)
        self.know(parsed.names, "too-many-names")
        return parsed.text

    def asked(self, line: bytes) -> Asked | None:
        """A line of a session file; None if it is skipped."""
        if len(line) > BYTES:
            raise Fault("line-too-long")
        if not line or line.startswith(b"#"):
            return None
        if self.commands == COMMANDS:
            raise Fault("too-many-lines")
        self.commands += 1
        return Asked(line.startswith(b"? "), self.command(line.removeprefix(b"? ")))

    def told(self, line: bytes) -> Told:
        """A line of a history."""
        first, _, rest = line.partition(b" ")
        session = number_of(first, SESSIONS)
        if not session:
            raise Fault("bad-session")
        command, arrow, reply = rest.partition(b" => ")
        if not arrow:
            raise Fault("bad-reply")
        text = self.command(command)
        parsed = parsed_reply(reply)
        self.know(parsed.names, "bad-reply")
        return Told(session, text, parsed.text)


def read_session(file: bytes) -> list[Asked]:
    """The lines of a session file, but for those that are skipped."""
    reader = Reader()
    lines: list[Asked] = []
    for number, line in enumerate(file.split(b"\n"), 1):
        try:
            asked = reader.asked(line)
        except Fault as fault:
            raise Fault(f"line {number}: {fault}") from fault
        if asked is not None:
            lines.append(asked)
    return lines


def count_in(header: bytes) -> int:
    """How many lines a header names."""
    word, _, number = header.partition(b" ")
    count = number_of(number, LINES)
    if word != b"history" or count is None:
        raise Fault("bad header")
    return count


def read_history(history: bytes) -> list[Told]:
    """The lines of a history that its header counts."""
    # after the last LF there is no line
    header, *lines = history.split(b"\n")
    if not lines:
        raise Fault("bad header")
    count = count_in(header)
    reader = Reader()
    told: list[Told] = []
    for number, line in enumerate(lines[:-1][:count], 1):
        try:
            told.append(reader.told(line))
        except Fault as fault:
            raise Fault(f"line {number}: {fault}") from fault
    if len(told) < count:
        raise Fault("cut")
    return told
