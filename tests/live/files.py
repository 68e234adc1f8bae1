"""What redodb-live takes for a log: other kinds of files, closed descriptors, failing syncs."""
import itertools
import os
import re
import resource
import shutil
import socket
import subprocess
from collections.abc import Sequence
from pathlib import Path

from shared.processes import Ended
from shared.talks import HEADER, PROGRAM, Checks, ended, fault, greeting

MEGABYTE = 1 << 20
LINE = "1 lock a => granted 1\n"
DEVICES = ["/dev/zero", "/dev/null", "/dev/full", "/proc/self/comm"]
# a call of a trace, with the file that it is about
CALL = re.compile(r"^(\w+)\((\d+)<([^>]*)>.*= (-?\d+)", re.M)
SYNCS = "fsync", "fdatasync"


class Files:
    """The cases, in a folder of their own."""

    def __init__(self, program: Path, folder: Path, checks: Checks) -> None:
        self.program, self.folder, self.checks = program, folder / "files", checks
        self.folder.mkdir()
        self.log = self.folder / "log"
        self.damaged = self.folder / "log.damaged"

    # Files that are no logs

    def is_refused(self, name: str, log: str, cause: str) -> None:
        """Each start by this name ends with this fault, at once."""
        for word in ("--sync", "--salvage"):
            got = ended(self.program, "1 lock a\n", "--log", log, word, cwd=self.folder)
            self.checks.check(f"{name}, {word}", got, fault(f"{log}: {cause}"))

    def other_kinds(self) -> None:
        (self.folder / "folder").mkdir()
        os.mkfifo(self.folder / "fifo")
        with socket.socket(socket.AF_UNIX) as listener:
            listener.bind(str(self.folder / "socket"))
        for name in ["folder", "fifo", "socket", ".", "/", *DEVICES]:
            self.is_refused(f"no regular file: {name}", name, "not a regular file")
        made = sorted(file.name for file in self.folder.iterdir())
        self.checks.check("no regular file: what is made", made, ["fifo", "folder", "socket"])

    def links(self) -> None:
        """A link isn't followed, and a log has one name."""
        self.log.write_text(HEADER + LINE)
        for name, to in (("link", "log"), ("dangling", "nothing"), ("loop", "loop")):
            (self.folder / name).symlink_to(to)
            self.is_refused(f"a link to {to}", name, "not a regular file")
        self.checks.check(
            "a dangling link makes no file", (self.folder / "nothing").exists(), False
        )
        (self.folder / "second").hardlink_to(self.log)
        for name in ("log", "second"):
            self.is_refused(f"two links: {name}", name, "has other links")
        self.checks.check("links: the log", self.log.read_text(), HEADER + LINE)
        (self.folder / "second").unlink()
        got = ended(self.program, "", "--log", "log", cwd=self.folder)
        self.checks.check("one link again", got, (0, greeting(1), ""))

    def below_a_link(self) -> None:
        """Only the last part of the name is to be no link."""
        (self.folder / "behind").mkdir()
        (self.folder / "way").symlink_to("behind")
        got = ended(self.program, "1 lock a\n", "--log", "way/log", cwd=self.folder)
        self.checks.check("below a link", got, (0, greeting(0) + LINE, ""))
        self.checks.check(
            "below a link: log", (self.folder / "behind/log").read_text(), HEADER + LINE
        )

    def limited(self, log: Path, *words: str) -> Ended:
        """What a program with little memory says of a log."""
        most = 64 * MEGABYTE
        return ended(
            self.program,
            "",
            "--log",
            str(log),
            *words,
            preexec_fn=lambda: resource.setrlimit(resource.RLIMIT_AS, (most, most)),
        )

    def foreign(self) -> None:
        """The first bytes of a large file say that it is no log."""
        large, copy = self.folder / "large", self.folder / "large.damaged"
        for name, text, size in (
            ("zeros", "", 3 << 30),
            ("nearly a log", "redodb-log 3\n", 3 << 30),
        ):
            large.write_text(text)
            os.truncate(large, size)
            self.checks.check(
                f"3 GB: {name}", self.limited(large), fault(f"{large}: line 1 differs")
            )
            self.checks.check(f"3 GB: {name}, after it", large.stat().st_size, size)
        size = 100 * MEGABYTE
        os.truncate(large, size)
        said = f"redodb-live: {large}: 0 lines kept, {size} bytes cut off\n"
        self.checks.check(
            "100 MB, with --salvage", self.limited(large, "--salvage"), (0, greeting(0), said)
        )
        self.checks.check(
            "100 MB, with --salvage: copy", copy.exists() and copy.stat().st_size, size
        )
        self.checks.check("100 MB, with --salvage: log", large.stat().st_size, len(HEADER))
        large.unlink()
        copy.unlink(missing_ok=True)

    # Closed descriptors

    def closed(self, descriptors: Sequence[int], *words: str) -> Ended:
        """What the program says if it is started with these descriptors closed."""

        def close() -> None:
            for descriptor in descriptors:
                os.close(descriptor)

        return ended(self.program, "1 lock a\n", "--log", str(self.log), *words, preexec_fn=close)

    def closed_descriptors(self) -> None:
        """No answer and no fault lands in the log: a read or a write of what is closed fails."""
        for descriptors in (
            some for count in (1, 2, 3) for some in itertools.combinations(range(3), count)
        ):
            name = f"closed: {descriptors}"
            self.log.unlink(missing_ok=True)
            got = self.closed(descriptors)
            answers, cause = greeting(0) + LINE, ""
            if 0 in descriptors:
                answers, cause = greeting(0), "redodb-live: -: read\n"
            if 1 in descriptors:
                answers, cause = "", "redodb-live: write\n"
            log = self.log.read_text()
            if self.program == PROGRAM:
                self.checks.check(
                    name, got, (2 if cause else 0, answers, "" if 2 in descriptors else cause)
                )
                self.checks.check(f"{name}: log", log, HEADER if cause else HEADER + LINE)
            else:
                self.checks.check(f"{name}: log", log in (HEADER, HEADER + LINE), True)
        if self.program != PROGRAM:
            self.checks.skip("closed descriptors: a program in plain Rust opens them by itself")

    def closed_when_salvaging(self) -> None:
        """What is said of the cut lands in no file either."""
        text = HEADER + LINE + "1 ood => ok\n"
        self.log.write_text(text)
        self.closed((1, 2), "--salvage")
        self.checks.check("closed, with --salvage: copy", self.damaged.read_text(), text)
        log = self.log.read_text()
        wanted = HEADER + LINE + "1 unlock a => ok\n"
        self.checks.check(
            "closed, with --salvage: log", log in (wanted, wanted + "1 lock a => granted 2\n"), True
        )
        self.damaged.unlink()

    # Syncs

    def traced(
        self, asked: str, *words: str, fails: str = ""
    ) -> tuple[Ended, list[tuple[str, str]]]:
        """What the program says, and what it does with the log, its copy and their folder, in order.

        Each is the name of a call, and that of the file. Of these calls, some may fail.
        """
        trace = self.folder.parent / "trace"
        calls = "trace=write,pwrite64,ftruncate,fsync,fdatasync"
        strace = [
            "strace",
            "-qq",
            "-y",
            "-e",
            calls,
            *(["-e", f"inject={fails}"] if fails else []),
            "-o",
            str(trace),
        ]
        run = subprocess.run(
            [*strace, self.program, "--log", self.log, *words],
            input=asked.encode(),
            capture_output=True,
            check=False,
        )
        got = run.returncode, run.stdout.decode(), run.stderr.decode()
        names = {self.log: "log", self.damaged: "copy", self.folder: "folder"}
        done = [
            (call, names.get(Path(file))) for call, _, file, _ in CALL.findall(trace.read_text())
        ]
        return got, [("sync" if call in SYNCS else call, name) for call, name in done if name]

    def synced_at_the_start(self) -> None:
        """The folder of a new log is synced before its first line.

        With --sync, what was read is synced before it is answered.
        """
        self.log.unlink(missing_ok=True)
        got, done = self.traced("")
        self.checks.check("a new log", got, (0, greeting(0), ""))
        self.checks.check("a new log: its folder", done, [("sync", "folder"), ("write", "log")])
        got, done = self.traced("")
        self.checks.check("a log that was there", (got, done), ((0, greeting(0), ""), []))
        got, done = self.traced("", "--sync")
        self.checks.check("with --sync", got, (0, greeting(0), ""))
        self.checks.check("with --sync: syncs", sorted(done), [("sync", "folder"), ("sync", "log")])

    def synced_copy(self) -> None:
        """The copy and its folder are on the disk before the log is cut, and the cut before more."""
        self.log.write_text(HEADER + "1 ood => ok\n")
        _, done = self.traced("", "--salvage")
        done = [step for step in done if step != ("write", "copy")]
        self.checks.check(
            "a copy: syncs",
            done,
            [("sync", "copy"), ("sync", "folder"), ("ftruncate", "log"), ("sync", "log")],
        )
        self.damaged.unlink()
        for name, fails in (("the copy", "fdatasync:error=EIO"), ("its folder", "fsync:error=EIO")):
            self.log.write_text(HEADER + "1 ood => ok\n")
            got, _ = self.traced("", "--salvage", fails=fails)
            self.checks.check(f"{name} can't be synced", got, fault(f"{self.damaged}: write"))
            self.checks.check(
                f"{name} can't be synced: log", self.log.read_text(), HEADER + "1 ood => ok\n"
            )
            self.damaged.unlink()

    def folder_without_syncs(self) -> None:
        """A file system that syncs no folder, by EINVAL, is taken as it is; another fault isn't."""
        for error, wanted in (
            ("EINVAL", (0, greeting(0), "")),
            ("EIO", fault(f"{self.log}: write")),
        ):
            self.log.unlink()
            got, _ = self.traced("", fails=f"fsync:error={error}")
            self.checks.check(f"the folder's sync fails: {error}", got, wanted)
        self.checks.check("the folder's sync fails: log", self.log.read_text(), "")
        _, done = self.traced("")
        self.checks.check("the next start", done, [("sync", "folder"), ("write", "log")])

    def failed_in_the_talk(self) -> None:
        """What couldn't be synced isn't answered, and is no longer in the log at the next start."""
        for at, asked, kept in (
            (1, "1 lock a\n", HEADER),
            (2, "1 lock a\n", HEADER),
            (2, "1 lock a\n2 lock b\n", HEADER),
        ):
            self.log.unlink()
            name = f"sync {at} of {asked!r} fails"
            got, _ = self.traced(asked, "--sync", fails=f"fdatasync:error=EIO:when={at}+")
            said = greeting(0) if at > 1 else ""
            self.checks.check(name, got, (2, said, f"redodb-live: {self.log}: write\n"))
            self.checks.check(f"{name}: log", self.log.read_text(), kept)
            got = ended(self.program, "2 lock a\n", "--log", str(self.log), "--sync")
            self.checks.check(
                f"{name}: the next start", got, (0, f"{greeting(0)}2 lock a => granted 1\n", "")
            )

    def failed_at_the_start(self) -> None:
        """No answer rests on what couldn't be synced.

        The next sync has it to write, whatever the cache says.
        """
        self.log.write_text(HEADER + LINE)
        left = HEADER + LINE + "1 unlock a => ok\n"
        got, done = self.traced("2 ood\n", "--sync", fails="fdatasync:error=EIO")
        self.checks.check("the first sync fails", got, fault(f"{self.log}: write"))
        self.checks.check("the first sync fails: log", self.log.read_text(), left)
        calls = [call for call, file in done if file == "log"]
        wanted = ["write", "sync", "write"]
        self.checks.check("the first sync fails: it is written again", calls, wanted)
        got = ended(self.program, "2 ood\n", "--log", str(self.log), "--sync")
        self.checks.check("the next sync is done", got, (0, f"{greeting(2)}2 ood => ood\n", ""))

    def traces(self) -> None:
        can_trace = (
            shutil.which("strace")
            and subprocess.run(
                ["strace", "-qq", "-o", "/dev/null", "true"], capture_output=True, check=False
            ).returncode
            == 0
        )
        if not can_trace:
            self.checks.skip("syncs that fail: no strace")
            return
        self.synced_at_the_start()
        self.synced_copy()
        self.folder_without_syncs()
        self.failed_in_the_talk()
        self.failed_at_the_start()

    def all(self) -> None:
        self.other_kinds()
        self.links()
        self.below_a_link()
        self.foreign()
        self.closed_descriptors()
        self.closed_when_salvaging()
        self.traces()
