"""Backups that redodb-live makes: what they have, also of a log that is in use, and what is in the
way."""
import fcntl
import os
import resource
import shutil
import signal
import subprocess
import threading
from pathlib import Path

from backups import COPIES, TEXT, ask
from logs import after
from shared.processes import Ended
from shared.talks import HEADER, Checks, ended, fault, greeting
from starts import Start

# logs, each with what a start leaves of it before it ends the sessions
LOGS = {
    "no line": (HEADER, HEADER),
    "lines": (TEXT, TEXT),
    "a torn line": (TEXT + "1 done t 2 =", TEXT),
    "nothing": ("", HEADER),
    "a part of the header": (HEADER[:5], HEADER),
}
# what is no log, with the line of its fault
DAMAGED = {
    "a line that differs": (HEADER + "1 lock t => granted 2\n", "line 2 differs"),
    "another file": ("precious\n", "line 1 differs"),
    "a later form": ("redodb-log 3\n", "line 1 differs"),
    "a damaged dump": ("redodb-log 2\nstate 0 0 00\n", "line 2: no state"),
}


# calls of a backup that fail, or in whose place it is killed
CALLS = "openat", "flock", "read", "write", "fsync", "rename"
FAILS, DIES = "error=EIO", "error=EIO:signal=KILL"


def can_trace() -> bool:
    """Whether strace is there, and may trace."""
    words = ["strace", "-qq", "-o", "/dev/null", "true"]
    is_there = shutil.which("strace") is not None
    return is_there and subprocess.run(words, capture_output=True, check=False).returncode == 0


class MadeBackups:
    """The cases, in a folder of their own."""

    def __init__(self, program: Path, folder: Path, checks: Checks) -> None:
        self.program, self.checks = program, checks
        self.folder = folder / "made"
        self.folder.mkdir()
        self.log, self.copy = self.folder / "log", self.folder / "copy"

    def back_up(self, copy: Path, **options: object) -> Ended:
        """A backup of the log; the lines on standard input are nobody's."""
        words = "--log", str(self.log), "--backup", str(copy)
        return ended(self.program, "1 file x 1\n", *words, **options)

    def files(self) -> dict[str, bytes | None]:
        """The files of the folder, with their bytes."""
        return {
            file.name: file.read_bytes() if file.is_file() else None
            for file in sorted(self.folder.iterdir())
        }

    def clear(self) -> None:
        for file in self.folder.iterdir():
            if file.is_dir() and not file.is_symlink():
                file.rmdir()
            else:
                file.unlink()

    def refused(self, name: str, words: str, **options: object) -> None:
        """The backup ends with a fault, and all files are as they were."""
        before = self.files()
        self.checks.check(f"{name}: fault", self.back_up(self.copy, **options), fault(words))
        self.checks.check(f"{name}: files", self.files(), before)

    # What a backup has

    def of_logs(self) -> None:
        for name, (text, kept) in LOGS.items():
            self.clear()
            self.log.write_text(text)
            count = kept.count(" => ")
            self.checks.check(f"{name}: backup", self.back_up(self.copy), (0, greeting(count), ""))
            wanted = {"copy": after(kept.encode()).compacted, "log": text.encode()}
            self.checks.check(f"{name}: files", self.files(), wanted)

    def of_a_backup(self) -> None:
        """A backup of a backup is the same; it is a log to go on from."""
        self.clear()
        self.log.write_text(TEXT)
        self.back_up(self.copy)
        self.copy.rename(self.log)
        self.checks.check("of a dump", self.back_up(self.copy), (0, greeting(0), ""))
        self.checks.check("of a dump: copy", self.copy.read_bytes(), self.log.read_bytes())
        got = ended(self.program, "2 lock t\n", "--log", str(self.copy))
        self.checks.check("a copy to go on from", got, (0, greeting(0) + "2 lock t => granted 2\n", ""))

    def of_a_log_in_use(self) -> None:
        """Backups are made while lines are asked: each has the log's first lines, so many as its
        greeting says."""
        self.clear()
        self.log.write_text(TEXT)
        head = after(TEXT.encode()).compacted
        start = Start(self.program, self.log, "--compact")
        self.checks.check("in use: greeting", start.is_greeted(), True)
        assert start.process.stdin is not None
        asking = threading.Thread(target=ask, args=(start.process.stdin,))
        asking.start()
        copies = [self.folder / f"copy{at}" for at in range(COPIES)]
        made = [self.back_up(copy) for copy in copies]
        asking.join()
        status, _, errors = start.end()
        self.checks.check("in use: end", (status, errors), (0, ""))
        lines = self.log.read_bytes()[len(head) :].splitlines(keepends=True)
        for copy, (status, out, errors) in zip(copies, made):
            count = int(out.split()[-1]) if status == 0 else 0
            self.checks.check(f"{copy.name}: made", (status, out, errors), (0, greeting(count), ""))
            wanted = after(head + b"".join(lines[:count])).compacted
            self.checks.check(f"{copy.name}: bytes", copy.read_bytes(), wanted)
        counts = {out for _, out, _ in made}
        self.checks.check("in use: of more than one moment", len(counts) > 1, True)

    # What is in the way

    def damaged(self) -> None:
        for name, (text, line) in DAMAGED.items():
            self.clear()
            self.log.write_text(text)
            self.refused(name, f"{self.log}: {line}")

    def no_log(self) -> None:
        self.clear()
        self.refused("no log", f"{self.log}: cannot open")
        self.log.mkdir()
        self.refused("a folder", f"{self.log}: not a regular file")
        self.log.rmdir()
        os.mkfifo(self.log)
        self.refused("a FIFO", f"{self.log}: not a regular file")
        self.log.unlink()
        (self.folder / "other").write_text(TEXT)
        self.log.symlink_to("other")
        self.refused("a link", f"{self.log}: not a regular file")
        self.log.unlink()
        os.link(self.folder / "other", self.log)
        self.refused("another link", f"{self.log}: has other links")

    def is_there(self) -> None:
        """A copy that is there stays as it is, whatever it is."""
        self.clear()
        self.log.write_text(TEXT)
        there = f"{self.copy}: is there already"
        self.copy.write_text(HEADER)
        self.refused("a copy", there)
        self.copy.unlink()
        self.copy.mkdir()
        self.refused("a folder in its place", there)
        self.copy.rmdir()
        self.copy.symlink_to("nothing")
        self.refused("a link in its place", there)
        self.checks.check("a link in its place: stays", os.readlink(self.copy), "nothing")
        self.clear()
        self.log.write_text(TEXT)
        self.copy = self.log
        self.refused("the log itself", f"{self.log}: is there already")
        self.copy = self.folder / "nowhere/copy"
        self.refused("no folder", f"{self.copy}: cannot open")
        self.copy = self.folder / "copy"

    def full(self) -> None:
        """No file can grow so far: none is left."""
        self.clear()
        self.log.write_text(TEXT)
        for limit in 0, 1, len(TEXT) - 1:
            self.refused(
                f"room for {limit} bytes", f"{self.copy}: write", restore_signals=False,
                preexec_fn=lambda most=limit: resource.setrlimit(resource.RLIMIT_FSIZE, (most, most)),
            )

    def no_room_for_the_dump(self) -> None:
        """Another file has the name that the dump needs: the copy has the lines."""
        self.clear()
        self.log.write_text(TEXT)
        other = Path(f"{self.copy}.new")
        other.write_text("precious\n")
        errors = f"redodb-live: {other}: is there already\n"
        got = self.back_up(self.copy)
        self.checks.check("no name for the dump", got, (0, greeting(TEXT.count(" => ")), errors))
        wanted = {"copy": after(TEXT.encode()).whole, "copy.new": b"precious\n", "log": TEXT.encode()}
        self.checks.check("no name for the dump: files", self.files(), wanted)

    def locked(self) -> None:
        """A lock on the log is no hindrance, and the backup takes none."""
        self.clear()
        self.log.write_text(TEXT)
        with self.log.open() as file:
            fcntl.flock(file, fcntl.LOCK_EX)
            got = self.back_up(self.copy)
        self.checks.check("a locked log", got, (0, greeting(TEXT.count(" => ")), ""))

    # What fails in its midst

    def traced(self, inject: str) -> tuple[int, str]:
        """A backup in which a call fails that is about its files. Returns its status, and what it
        says of that."""
        self.clear()
        self.log.write_text(TEXT)
        call = inject.partition(":")[0]
        paths = self.log, self.copy, Path(f"{self.copy}.new"), self.folder
        strace = ["strace", "-qq", "-o", "/dev/null", *(f"--trace-path={path}" for path in paths)]
        run = subprocess.run(
            [*strace, "-e", f"trace={call}", "-e", f"inject={inject}", self.program]
            + ["--log", self.log, "--backup", self.copy],
            stdin=subprocess.DEVNULL,
            capture_output=True,
            check=False,
        )
        return run.returncode, run.stderr.decode()

    def is_left(self, name: str, has_ended: bool) -> bool:
        """The log is as it was, and there is no copy, or all of one; a kill may leave what there was
        of it. Returns whether there is one."""
        files = self.files()
        self.checks.check(f"{name}: log", files["log"], TEXT.encode())
        copy = files.get("copy")
        ends = after(TEXT.encode())
        is_right = copy in (None, ends.compacted, ends.whole)
        if not has_ended and copy is not None:
            is_right = is_right or ends.whole.startswith(copy)
        self.checks.check(f"{name}: copy {copy!r}", is_right, True)
        return copy is not None

    def fails_at(self, call: str, number: int) -> bool:
        """A call fails. Returns whether there was such a call: if not, the backup is made."""
        name = f"{call} {number}"
        status, errors = self.traced(f"{call}:{FAILS}:when={number}")
        is_made = self.is_left(name, True)
        self.checks.check(f"{name}: {errors!r}", (status, is_made) in ((0, True), (2, False)), True)
        self.checks.check(f"{name}: one line at most", errors.count("\n") <= 1, True)
        return (status, errors) != (0, "")

    def dies_at(self, call: str, number: int) -> bool:
        """The program is killed in the place of a call. Returns whether there was such a call."""
        status, _ = self.traced(f"{call}:{DIES}:when={number}")
        self.is_left(f"killed at {call} {number}", status != -signal.SIGKILL)
        return status == -signal.SIGKILL

    def failures(self) -> None:
        if not can_trace():
            self.checks.skip("failures in the midst of a backup: no strace")
            return
        for call in CALLS:
            for tries in (self.fails_at, self.dies_at):
                number = 1
                while tries(call, number):
                    number += 1
                self.checks.check(f"{call}: some failed", number > 1, True)

    def of_a_private_log(self) -> None:
        """Who may not read the log may not read its backup."""
        for mode in 0o600, 0o640, 0o644:
            self.clear()
            self.log.write_text(TEXT)
            self.log.chmod(mode)
            self.back_up(self.copy)
            self.checks.check(f"mode {mode:o}", self.copy.stat().st_mode & 0o777, mode)

    def all(self) -> None:
        self.of_logs()
        self.of_a_private_log()
        self.of_a_backup()
        self.of_a_log_in_use()
        self.damaged()
        self.no_log()
        self.is_there()
        self.full()
        self.no_room_for_the_dump()
        self.locked()
        self.failures()
