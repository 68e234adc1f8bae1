"""Runs of redodb-live in which a chosen call of the system fails (tests/failing/failing.c)."""
import errno
import os
import subprocess
from dataclasses import dataclass
from pathlib import Path
from typing import IO, Iterable, NamedTuple

from shared.talks import SECONDS, TOP

# the error of a write that takes half of its bytes; and those by which the program is killed
HALF, BEFORE, AFTER = 0, -1, -2
WORDS = {HALF: "half", BEFORE: "killed before", AFTER: "killed after"}


class Plan(NamedTuple):
    """The call of this kind on this file that has this number fails, and maybe all later ones; or
    the program is killed at it."""
    kind: str
    file: str
    number: int
    error: int
    is_lasting: bool = False

    def is_death(self) -> bool:
        return self.error in (BEFORE, AFTER)

    def text(self) -> str:
        last = "+" if self.is_lasting else " "
        return f"{self.kind} {self.file} {self.number}{last}{self.error}"

    def told(self) -> str:
        error = WORDS.get(self.error) or errno.errorcode[self.error]
        return f"{self.kind} {self.file} {self.number}{'+' * self.is_lasting} {error}"


class Call(NamedTuple):
    """A call that was made: what it returned, or its error below zero; how long the log, its copy
    and the new log are then, -1 if there is none; and whether its failure was planned."""
    kind: str
    file: str
    result: int
    log: int
    copy: int
    new: int
    is_planned: bool

    def has_passed(self, kind: str, file: str) -> bool:
        return (self.kind, self.file) == (kind, file) and self.result >= 0


@dataclass(frozen=True)
class Tried:
    """What a run did, and what it left."""
    status: int
    said: str
    errors: str
    calls: list[Call]
    log: str | None
    copy: str | None
    new: str | None

    def failed(self) -> Call | None:
        """The first call whose failure was planned."""
        return next((call for call in self.calls if call.is_planned), None)


def call_of(line: str) -> Call:
    kind, file, *numbers, is_planned = line.split()
    result, log, copy, new = map(int, numbers)
    return Call(kind, file, result, log, copy, new, is_planned == "1")


def text_of(file: Path) -> str | None:
    return file.read_bytes().decode("latin-1") if file.exists() else None


class Runner:
    """A program, its log, and the library that makes its calls fail."""

    def __init__(self, program: Path, folder: Path) -> None:
        self.program = program
        (folder / "of_the_log").mkdir()
        self.log = folder / "of_the_log/log"
        self.copy = self.log.with_name("log.damaged")
        self.new = self.log.with_name("log.new")
        self.notes = folder / "notes"
        self.library = folder / "failing.so"
        source = str(TOP / "tests/failing/failing.c")
        subprocess.run(["cc", "-shared", "-fPIC", "-O1", "-o", self.library, source], check=True)

    def put(self, log: str | None, copy: str | None = None, new: str | None = None) -> None:
        """The log, its copy and a new log are these texts, or absent."""
        for file, text in ((self.log, log), (self.copy, copy), (self.new, new)):
            file.unlink(missing_ok=True)
            if text is not None:
                file.write_bytes(text.encode("latin-1"))

    def run(self, rounds: list[str], words: tuple[str, ...], *plans: Plan) -> Tried:
        """Talks with the program. Each round of lines is what one read gives."""
        return self.tried([str(self.program), "--log", str(self.log), *words], rounds, plans)

    def tried(self, words: list[str], rounds: list[str], plans: Iterable[Plan]) -> Tried:
        """What a program does with these rounds of lines."""
        asks, told = os.pipe2(os.O_DIRECT | os.O_CLOEXEC)
        for lines in rounds:
            os.write(told, lines.encode())
        os.close(told)
        with os.fdopen(asks, "rb") as given:
            return self.given(words, given, plans)

    def given(self, words: list[str], given: IO[bytes], plans: Iterable[Plan]) -> Tried:
        """What a program does with the lines of a file."""
        self.notes.write_bytes(b"")
        variables = {"LD_PRELOAD": str(self.library), "LOG": str(self.log),
                     "NOTES": str(self.notes), "FAIL": " ".join(plan.text() for plan in plans)}
        run = subprocess.run(words, stdin=given, env=variables, capture_output=True,
                             timeout=SECONDS, check=False)
        calls = [call_of(line) for line in self.notes.read_text().splitlines()]
        said, errors = run.stdout.decode("latin-1"), run.stderr.decode("latin-1")
        files = (text_of(file) for file in (self.log, self.copy, self.new))
        return Tried(run.returncode, said, errors, calls, *files)
