"""Copies of a log that are taken while redodb-live answers: each of them is a log, of all that was
answered before it was taken."""
import shutil
import threading
import time
from pathlib import Path
from typing import IO

from logs import after
from shared.talks import HEADER, Checks, ended, greeting
from starts import Start

TEXT = HEADER + "1 file a 1 => ok\n1 lock t => granted 1\n1 start t => ok\n"
ROUNDS, COPIES = 400, 25
# seconds between two rounds
ROUND = 0.0005


def asked_in(number: int) -> list[str]:
    """The lines of a round: a file changes, and a target that depends on it is built."""
    name, target, session = f"s{number % 7}", f"t{number % 11}", 1 + number % 3
    commands = [f"file {name} {number}", f"lock {target}", f"start {target}"]
    commands += [f"ifchange {target} {name} a", f"done {target} {number}", f"unlock {target}"]
    return [f"{session} {command}\n" for command in commands]


def ask(pipe: IO[bytes]) -> None:
    """Asks round after round, one line at a time."""
    for number in range(ROUNDS):
        for line in asked_in(number):
            pipe.write(line.encode())
            pipe.flush()
        time.sleep(ROUND)


class Backups:
    """The cases, in a folder of their own."""

    def __init__(self, program: Path, folder: Path, checks: Checks) -> None:
        self.program, self.checks = program, checks
        self.folder = folder / "backups"
        self.folder.mkdir()
        self.log = self.folder / "log"

    def talk(self, start: Start) -> list[Path]:
        """Copies the log while lines are asked; returns the copies."""
        assert start.process.stdin is not None
        asking = threading.Thread(target=ask, args=(start.process.stdin,))
        asking.start()
        copies = [self.folder / f"copy{at}" for at in range(COPIES)]
        for copy in copies:
            shutil.copyfile(self.log, copy)
            asking.join(ROUND * ROUNDS / COPIES)
        asking.join()
        return copies

    def is_log(self, copy: Path, whole: bytes) -> None:
        """The copy is a beginning of the log, and a start makes a dump of what it has."""
        name, text = copy.name, copy.read_bytes()
        self.checks.check(f"{name}: a beginning of the log", whole.startswith(text), True)
        kept = text[: text.rfind(b"\n") + 1]
        count = len(kept[len(self.head) :].splitlines())
        got = ended(self.program, "", "--log", str(copy), "--compact")
        self.checks.check(f"{name}: start", got, (0, greeting(count), ""))
        self.checks.check(f"{name}: dump", copy.read_bytes(), after(kept).compacted)

    def all(self) -> None:
        self.log.write_text(TEXT)
        self.head = after(TEXT.encode()).compacted
        start = Start(self.program, self.log, "--compact")
        self.checks.check("backups: greeting", start.is_greeted(), True)
        copies = self.talk(start)
        status, said, errors = start.end()
        got = status, said.count("\n"), errors
        self.checks.check("backups: end", got, (0, ROUNDS * len(asked_in(0)), ""))
        sizes = {copy.stat().st_size for copy in copies}
        self.checks.check("backups: of more than one moment", len(sizes) > 1, True)
        for copy in copies:
            self.is_log(copy, self.log.read_bytes())
