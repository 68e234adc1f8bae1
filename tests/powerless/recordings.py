"""Conversations with redodb-live of which all is recorded that it does with its files
(recording.c)."""
import os
import random
import subprocess
from collections.abc import Iterable, Iterator
from io import BytesIO
from pathlib import Path
from typing import NamedTuple

from disks import Event
from shared.databases import layered, mixed
from shared.talks import TOP, Talk

# a session whose questions end the lines that are sent together
MARKS = 65_535
# of so many bytes all are written, and read, at once
TOGETHER = 4000


class Recording(NamedTuple):
    """What a program did in a conversation, and how it ended."""

    events: list[Event]
    status: int
    errors: str


def events_of(record: bytes) -> Iterator[Event]:
    """The entries of a record, in order."""
    entries = BytesIO(record)
    while head := entries.readline():
        kind, place, count, name = head.decode().rstrip("\n").split(" ", 3)
        yield Event(kind, name, int(place), entries.read(int(count)))
        entries.read(1)


def random_lines(choose: random.Random, number: int, is_ended: bool) -> list[str]:
    """The lines of a conversation, in the end of which all sessions may be ended. Conversations of
    the same number are about the same names, mostly."""
    database = choose.choice([mixed, layered])(choose, number)
    ends = [f"{session} end" for session in database.sessions]
    return database.lines + (ends if is_ended else [])


def bursts(choose: random.Random, lines: Iterable[str], most: int) -> Iterator[list[str]]:
    """Lines that are sent together, one or up to so many."""
    burst: list[str] = []
    wanted = choose.randint(1, most)
    for line in lines:
        if len(burst) >= wanted or sum(map(len, [*burst, line])) > TOGETHER:
            yield burst
            burst, wanted = [], choose.randint(1, most)
        burst.append(line)
    yield burst


class Recorder:
    """A program that is recorded, in a folder of its own."""

    def __init__(self, program: Path, folder: Path) -> None:
        self.program, self.folder = program, folder
        self.library, self.record = folder / "recording.so", folder / "record"
        source = TOP / "tests/powerless/recording.c"
        subprocess.run(["cc", "-shared", "-fPIC", "-O1", "-o", self.library, source], check=True)

    def recorded(self, talked: Iterable[list[str]], *words: str) -> Recording:
        """Talks with the program: of the lines that are sent together all are answered before the
        next ones are sent."""
        talk = Talk(self.program, self.folder, *words, **self.variables())
        said = talk.hear()
        for number, burst in enumerate(talked):
            mark = f"{MARKS} state mark{number}"
            talk.send("".join(f"{line}\n" for line in [*burst, mark]))
            while said and not said.startswith(mark):
                said = talk.hear()
        status, errors = talk.end()
        return Recording(self.events(), status, errors)

    def recorded_of(self, asked: Path, *words: str) -> Recording:
        """Gives the program a file of lines, which it reads as it likes."""
        with asked.open("rb") as given:
            run = subprocess.run([self.program, *words], stdin=given, stdout=subprocess.PIPE,
                                 stderr=subprocess.PIPE, check=False,
                                 env={**os.environ, **self.variables()})
        return Recording(self.events(), run.returncode, run.stderr.decode())

    def variables(self) -> dict[str, str]:
        """What a program that is recorded finds in its environment, with a new record."""
        self.record.unlink(missing_ok=True)
        return {"LD_PRELOAD": str(self.library), "RECORD": str(self.record)}

    def events(self) -> list[Event]:
        return list(events_of(self.record.read_bytes())) if self.record.exists() else []
