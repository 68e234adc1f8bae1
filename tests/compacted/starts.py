"""Starts of redodb-live that compact one log at once: one has it, and no line is lost."""
import fcntl
import os
import subprocess
import threading
import time
from collections.abc import Iterable
from pathlib import Path
from typing import IO

from logs import compacted, end_all
from shared.reference import Reference
from shared.talks import SECONDS, TOP, Checks, greeting

NAMES = "a", "b", "c", "d"


class Start:
    """A start of the program, whose input stays open until it is told that there is no more."""

    def __init__(self, program: Path, log: Path, *words: str, **variables: str) -> None:
        pipe = subprocess.PIPE
        self.process = subprocess.Popen(
            [program, "--log", log, *words], stdin=pipe, stdout=pipe, stderr=pipe, env=variables
        )
        self.greeting = ""
        self.reader = threading.Thread(target=self.read_greeting)
        self.reader.start()

    def read_greeting(self) -> None:
        assert self.process.stdout is not None
        self.greeting = self.process.stdout.readline().decode()

    def is_greeted(self) -> bool:
        """Waits until it greets or ends; returns whether it greets."""
        self.reader.join(SECONDS)
        return self.greeting != ""

    def end(self, asked: str = "") -> tuple[int, str, str]:
        """Sends lines, and says that there are no more. Returns what it did after its greeting."""
        self.reader.join(SECONDS)
        said, errors = self.process.communicate(asked.encode(), timeout=SECONDS)
        return self.process.returncode, said.decode(), errors.decode()


def is_locked(file: IO[bytes]) -> bool:
    """Whether a process has the lock of an open file."""
    try:
        fcntl.flock(file, fcntl.LOCK_EX | fcntl.LOCK_NB)
    except BlockingIOError:
        return True
    fcntl.flock(file, fcntl.LOCK_UN)
    return False


class Starts:
    """The cases, in a folder of their own."""

    def __init__(self, program: Path, folder: Path, checks: Checks) -> None:
        self.program, self.folder, self.checks = program, folder, checks
        self.log = folder / "log"
        self.opened, self.go = folder / "opened", folder / "go"
        self.library = folder / "waiting.so"
        source = TOP / "tests/compacted/waiting.c"
        subprocess.run(["cc", "-shared", "-fPIC", "-O1", "-o", self.library, source], check=True)
        self.begin()

    def begin(self) -> None:
        """No log, and nothing is known."""
        for file in (self.log, self.opened, self.go):
            file.unlink(missing_ok=True)
        self.reference = Reference()
        # how many lines the log has after its dump, and how often it was in use
        self.lines = self.used = 0

    def in_use(self) -> tuple[int, str, str]:
        return 2, "", f"redodb-live: {self.log}: in use\n"

    def has(self, name: str, start: Start, number: int) -> None:
        """This start has the log, which is compacted: it restores all lines, and gets others."""
        self.checks.check(f"{name}: greeting", start.greeting, greeting(self.lines))
        end_all(self.reference)
        wanted = compacted(self.reference)
        self.checks.check(f"{name}: a dump", self.log.read_bytes(), wanted)
        session, target = 1 + number % 60, NAMES[number % len(NAMES)]
        commands = f"file s{number % 7} {number}", f"lock {target}", f"start {target}"
        told = "".join(
            f"{session} {command} => {self.reference.answer(session, command)}\n"
            for command in commands
        )
        asked = "".join(f"{session} {command}\n" for command in commands)
        self.checks.check(f"{name}: end", start.end(asked), (0, told, ""))
        self.checks.check(f"{name}: log", self.log.read_bytes(), wanted + told.encode())
        self.lines = len(commands)

    # Two at once

    def two(self, number: int) -> None:
        """Two starts at once: the first to lock the log has it until it ends."""
        name = f"two starts {number}"
        both = [Start(self.program, self.log, "--compact") for _ in range(2)]
        are_greeted = [start.is_greeted() for start in both]
        self.checks.check(f"{name}: one is greeted", sorted(are_greeted), [False, True])
        for start, is_greeted in zip(both, are_greeted):
            if not is_greeted:
                self.checks.check(f"{name}: the other", start.end(), self.in_use())
                self.used += 1
        first = [start for start, is_greeted in zip(both, are_greeted) if is_greeted]
        for start in first:
            self.has(name, start, number)

    def many(self, count: int) -> None:
        self.begin()
        started = time.monotonic()
        for number in range(count):
            self.two(number)
        seconds = time.monotonic() - started
        print(f"{count} times two starts at once: {self.used} in use, {seconds:.0f} s", flush=True)

    # The locks

    def are_locked(self, name: str, files: Iterable[IO[bytes]], wanted: bool) -> None:
        """Whether each of these files is locked."""
        for number, file in enumerate(files):
            self.checks.check(f"{name}: file {number} is locked", is_locked(file), wanted)

    def locks(self) -> None:
        """The old file is locked as long as the new one."""
        self.begin()
        self.has("the locks, first", self.started(), 0)
        with self.log.open("rb") as old:
            start = self.started()
            with self.log.open("rb") as new:
                same = os.path.sameopenfile(old.fileno(), new.fileno())
                self.checks.check("the log is another file", same, False)
                self.are_locked("in a conversation", (old, new), True)
                self.has("the locks", start, 1)
                self.are_locked("after a conversation", (old, new), False)

    # One that has opened the log before it is replaced

    def late(self) -> Start:
        """A start that has opened the log, and doesn't lock it yet."""
        for file in (self.opened, self.go):
            file.unlink(missing_ok=True)
        variables = {
            "LD_PRELOAD": str(self.library),
            "OPENED": str(self.opened),
            "GO": str(self.go),
        }
        start = Start(self.program, self.log, "--compact", **variables)
        until = time.monotonic() + SECONDS
        while not self.opened.exists() and time.monotonic() < until:
            time.sleep(0.001)
        self.checks.check("a late start has opened the log", self.opened.exists(), True)
        return start

    def is_late(self, name: str, earlier: int, is_held: bool) -> None:
        """So many starts have the log before a late one locks it; the last of them may still have
        it then."""
        self.begin()
        self.has(f"{name}, first", self.started(), 0)
        late = self.late()
        for number in range(1, earlier + 1):
            self.has(f"{name}, {number}", self.started(), number)
        held = self.started() if is_held else None
        self.go.touch()
        self.checks.check(f"{name}: is greeted", late.is_greeted(), not is_held)
        if held is None:
            self.has(f"{name}, late", late, earlier + 1)
        else:
            self.checks.check(f"{name}: late", late.end(), self.in_use())
            self.has(f"{name}, held", held, earlier + 1)
        self.has(f"{name}, last", self.started(), earlier + 2)

    def started(self) -> Start:
        start = Start(self.program, self.log, "--compact")
        self.checks.check("a start is greeted", start.is_greeted(), True)
        return start

    def all(self, count: int) -> None:
        self.locks()
        self.is_late("the log is replaced once", 1, False)
        self.is_late("the log is replaced three times", 3, False)
        self.is_late("the first still has the log", 0, True)
        self.is_late("the second has the log", 1, True)
        self.is_late("the log isn't replaced", 0, False)
        self.many(count)
