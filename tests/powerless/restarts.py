"""Starts redodb-live on what a power loss left, and tells what it restores. What it has to do with
the files was worked out from "The log" of docs/RULES.md."""
import re
from pathlib import Path
from typing import NamedTuple

from shared.processes import Ended, Program
from shared.talks import HEADER, closing_of, fault, greeting, shown

DIFFERS = re.compile(r": line (\d+) differs\n$")


class Image(NamedTuple):
    """The log, LOG.damaged and LOG.new, as far as they are there."""

    log: bytes | None
    copy: bytes | None
    new: bytes | None


class Outcome(NamedTuple):
    """What a start makes of an image."""

    # the lines that are restored, those that led to a dump among them; and how many aren't
    lines: str
    restored: int
    # the log up to the line that differs, if one does
    refused: str | None
    # what it does otherwise than docs/RULES.md says
    faults: tuple[str, ...]


def text_of(file: bytes | None) -> str:
    """The letters of a file, if it is there. A byte is a letter."""
    return (file or b"").decode("latin-1")


def whole(text: str) -> str:
    """The lines that have an LF."""
    return text[:text.rfind("\n") + 1]


def count(lines: str) -> int:
    return lines.count("\n")


def closing(lines: str) -> str | None:
    """The lines that close the sessions after these, if these are of a history."""
    try:
        return closing_of(lines.splitlines(keepends=True))
    except (KeyError, ValueError):
        return None


class Heads:
    """What logs begin with, and the lines that led to it: none to a header, and to a dump those of
    the log whose place it took."""

    def __init__(self) -> None:
        self.known = {HEADER: ""}

    def cut(self, text: str) -> tuple[str, str]:
        """The head of a log, if it has one, and the whole lines after it."""
        head = next((head for head in self.known if text.startswith(head)), "")
        return head, whole(text[len(head):]) if head else ""

    def lines(self, text: str) -> str:
        """All lines of which a log speaks."""
        head, lines = self.cut(text)
        return self.known.get(head, "") + lines

    def is_right(self, text: str, had: str) -> bool:
        """Whether a log that begins so speaks of the first of these lines."""
        head, _ = self.cut(text)
        is_begun = any(head.startswith(text) for head in self.known)
        return is_begun or head != "" and had.startswith(self.known[head] + text[len(head):])

    def closed(self, text: str) -> str:
        """The log that a start makes of one that isn't damaged."""
        head, lines = self.cut(text)
        ends = closing(self.lines(text))
        return "no log" if ends is None else (head or HEADER) + lines + ends


class Restarts:
    """Starts a program by these words on images, in a folder of its own; each image once."""

    def __init__(self, program: Path, folder: Path, heads: Heads, *words: str) -> None:
        self.program, self.heads, self.words = Program(program), heads, words
        self.log = folder / "image"
        self.copy, self.new = (folder / f"image.{ending}" for ending in ("damaged", "new"))
        self.known: dict[Image, Outcome] = {}
        # the lines of outcomes, each once: they can be long
        self.lines: dict[str, str] = {}

    def outcome(self, image: Image) -> Outcome:
        if image not in self.known:
            outcome = self.started(image)
            lines = self.lines.setdefault(outcome.lines, outcome.lines)
            self.known[image] = outcome._replace(lines=lines)
        return self.known[image]

    def files(self) -> tuple[Path, ...]:
        return self.log, self.copy, self.new

    def put(self, image: Image) -> None:
        for file, text in zip(self.files(), image):
            if text is None:
                file.unlink(missing_ok=True)
            else:
                file.write_bytes(text)

    def found(self) -> Image:
        return Image(*(file.read_bytes() if file.exists() else None for file in self.files()))

    def ended(self, *words: str) -> Ended:
        return self.program.ended(b"", "--log", str(self.log), *self.words, *words)

    def started(self, image: Image) -> Outcome:
        """What a start without --salvage makes of an image, and then one with it, if it has to."""
        self.put(image)
        got = self.ended()
        text = text_of(image.log)
        differs = DIFFERS.search(got[2])
        if not differs:
            restored = count(self.heads.cut(text)[1])
            left = image._replace(log=self.heads.closed(text).encode())
            faults = self.other("a start", got, (0, greeting(restored), ""), left)
            return Outcome(self.heads.lines(text), restored, None, faults)
        number = int(differs[1])
        told = text.splitlines(keepends=True)
        before = "".join(told[:number - 1])
        wanted = fault(f"{self.log}: line {number} differs"), image
        faults = self.other("a start", got, *wanted) + self.salvaged(image, before)
        restored = count(self.heads.cut(before)[1])
        return Outcome(self.heads.lines(before), restored, "".join(told[:number]), faults)

    def salvaged(self, image: Image, before: str) -> tuple[str, ...]:
        """What is wrong with a start with --salvage: it keeps what comes before the line that
        differs, and a copy. A file that is no beginning of the log is never replaced; so it is
        moved away."""
        faults: tuple[str, ...] = ()
        if image.copy is not None and not (image.log or b"").startswith(image.copy):
            wanted = fault(f"{self.copy}: is there already"), image
            faults = self.other("a copy is there", self.ended("--salvage"), *wanted)
            self.copy.unlink()
        head, lines = self.heads.cut(before)
        gone = len(image.log or b"") - len(head + lines)
        told = f"redodb-live: {self.log}: {count(lines)} lines kept, {gone} bytes cut off\n"
        left = Image(self.heads.closed(before).encode(), image.log, image.new)
        got = self.ended("--salvage")
        return faults + self.other("--salvage", got, (0, greeting(count(lines)), told), left)

    def other(self, name: str, got: Ended, wanted: Ended, files: Image) -> tuple[str, ...]:
        """What is otherwise than wanted, of what a start says and of the files after it."""
        pairs = ("says", got, wanted), ("leaves", self.found(), files)
        return tuple(f"{name} {verb} {shown(one)}, and not {shown(other)}"
                     for verb, one, other in pairs if one != other)
