"""The copy of a damaged log: one that was begun is gone on with, and any other file stays as it is."""
import os
import resource
import shutil
import signal
import subprocess
from collections.abc import Callable
from pathlib import Path

from shared.talks import HEADER, Checks, ended, fault, greeting

LINE = "1 lock a => granted 1\n"
# a damaged log of some pieces, what is kept of it, and what it has in the end
KEPT = HEADER + LINE
TEXT = KEPT + "1 ood => ok\n" + LINE * 2000
LEFT = KEPT + "1 unlock a => ok\n"
PIECE = 8192
LENGTHS = 0, 1, PIECE - 1, PIECE, PIECE + 1, len(TEXT) - 1, len(TEXT)
# a user who isn't root
NOBODY = 65_534


class Copies:
    """The cases, in a folder of their own."""

    def __init__(self, program: Path, folder: Path, checks: Checks) -> None:
        self.program, self.folder, self.checks = program, folder / "copies", checks
        self.folder.mkdir()
        self.log, self.copy = self.folder / "log", self.folder / "log.damaged"

    def salvages(self, name: str) -> None:
        """The log is salvaged, and its copy is whole then."""
        got = ended(self.program, "", "--log", str(self.log), "--salvage")
        cut = len(TEXT) - len(KEPT)
        told = f"redodb-live: {self.log}: 1 lines kept, {cut} bytes cut off\n"
        self.checks.check(name, got, (0, greeting(1), told))
        self.checks.check(f"{name}: copy", self.copy.read_text() == TEXT, True)
        self.checks.check(f"{name}: log", self.log.read_text() == LEFT, True)
        self.copy.unlink()

    def begun(self) -> None:
        """A copy that is a beginning of the log is gone on with; it is the same file then."""
        for count in LENGTHS:
            self.log.write_text(TEXT)
            self.copy.write_text(TEXT[:count])
            with self.copy.open() as copy:
                self.salvages(f"a copy of {count} bytes")
                self.checks.check(f"a copy of {count} bytes: file", copy.read() == TEXT, True)

    def is_in_the_way(self, name: str) -> None:
        """What has the name of the copy isn't gone on with, and the log stays as it is."""
        self.log.write_text(TEXT)
        got = ended(self.program, "1 lock a\n", "--log", str(self.log), "--salvage")
        self.checks.check(name, got, fault(f"{self.copy}: is there already"))
        self.checks.check(f"{name}: log", self.log.read_text() == TEXT, True)

    def of_a_private_log(self) -> None:
        """Who may not read the log may not read its copy, be it new or one that was begun."""
        for mode in 0o600, 0o640, 0o644:
            for begun in None, "", TEXT[:PIECE]:
                self.log.write_text(TEXT)
                self.log.chmod(mode)
                if begun is not None:
                    self.copy.write_text(begun)
                ended(self.program, "", "--log", str(self.log), "--salvage")
                name = f"mode {mode:o}, {'no copy' if begun is None else len(begun)}"
                self.checks.check(name, self.copy.stat().st_mode & 0o777, mode)
                self.copy.unlink()
        self.log.unlink()

    def of_another_user(self) -> None:
        """What another user began stays as it is, even if anybody may write there."""
        if os.geteuid():
            self.checks.skip("a copy of another user: only root can make it")
            return
        program = Path(shutil.copy(self.program, self.folder / "program"))
        # any user may run it
        for path in self.folder.parent, self.folder, program:
            path.chmod(0o755)
        self.log.write_text(TEXT)
        os.chown(self.log, NOBODY, NOBODY)
        self.copy.write_text(TEXT[:PIECE])
        self.copy.chmod(0o666)
        user = {"user": NOBODY, "group": NOBODY, "extra_groups": []}
        got = ended(program, "1 lock a\n", "--log", str(self.log), "--salvage", **user)
        name = "a copy of another user"
        self.checks.check(name, got, fault(f"{self.copy}: is there already"))
        self.checks.check(f"{name}: log", self.log.read_text() == TEXT, True)
        self.checks.check(f"{name}: copy", self.copy.read_text() == TEXT[:PIECE], True)
        for path in self.log, self.copy, program:
            path.unlink()

    def others(self) -> None:
        """A file that is no beginning of the log stays as it is."""
        texts = {"longer than the log": f"{TEXT}1", "longer by a zero": f"{TEXT}\0"}
        for at in (0, PIECE - 1, PIECE, len(TEXT) - 1):
            texts[f"byte {at} differs"] = f"{TEXT[:at]}!{TEXT[at + 1:]}"
            texts[f"byte {at} differs, the last one"] = f"{TEXT[:at]}!"
        for name, text in texts.items():
            self.copy.write_text(text)
            self.is_in_the_way(f"a copy: {name}")
            self.checks.check(f"a copy: {name}: copy", self.copy.read_text() == text, True)
        self.copy.unlink()

    def links(self) -> None:
        """A copy is no link, and has one name, whatever its bytes are."""
        other = self.folder / "other"
        other.write_text(TEXT[:PIECE])
        for to in ("other", "log", "nothing", "log.damaged"):
            self.copy.symlink_to(to)
            self.is_in_the_way(f"a copy: a link to {to}")
            self.checks.check(f"a copy: a link to {to}: link", os.readlink(self.copy), to)
            self.copy.unlink()
        self.copy.hardlink_to(other)
        self.is_in_the_way("a copy: two links")
        self.copy.unlink()
        self.checks.check("a copy: links: file", other.read_text() == TEXT[:PIECE], True)
        other.unlink()

    def other_kinds(self) -> None:
        """A FIFO or a folder is refused at once, and stays."""
        make: dict[str, tuple[Callable[[Path], None], Callable[[Path], None]]] = {
            "a FIFO": (os.mkfifo, Path.unlink),
            "a folder": (Path.mkdir, Path.rmdir),
        }
        for name, (made, gone) in make.items():
            made(self.copy)
            self.is_in_the_way(f"a copy: {name}")
            gone(self.copy)

    def too_large(self) -> None:
        """A copy that couldn't be written to its end is gone on with later."""
        most = 2 * PIECE + 100

        def limit() -> None:
            signal.signal(signal.SIGXFSZ, signal.SIG_IGN)
            resource.setrlimit(resource.RLIMIT_FSIZE, (most, most))

        self.log.write_text(TEXT)
        words = "--log", str(self.log), "--salvage"
        got = ended(self.program, "", *words, preexec_fn=limit)
        self.checks.check("no room for a copy", got, fault(f"{self.copy}: write"))
        self.checks.check("no room for a copy: log", self.log.read_text() == TEXT, True)
        is_begun = self.copy.read_text() == TEXT[:most]
        self.checks.check("no room for a copy: copy", is_begun, True)
        self.salvages("room for a copy")

    # Kills

    def killed(self, call: str, number: int, left: str, copied: str | None) -> None:
        """The program is killed in the place of a call; this is left of the log and its copy."""
        inject = f"inject={call}:error=EIO:signal=KILL:when={number}"
        strace = ["strace", "-qq", "-o", "/dev/null", "-e", f"trace={call}", "-e", inject]
        run = subprocess.run(
            [*strace, self.program, "--log", self.log, "--salvage"],
            stdin=subprocess.DEVNULL,
            capture_output=True,
            check=False,
        )
        name = f"killed at {call} {number}"
        self.checks.check(name, (run.returncode, run.stdout), (-signal.SIGKILL, b""))
        self.checks.check(f"{name}: log", self.log.read_text() == left, True)
        copy = self.copy.read_text() if self.copy.exists() else None
        self.checks.check(f"{name}: copy", copy == copied, True)

    def kills(self) -> None:
        """A kill in the midst of a salvage leaves all that the next one needs."""
        for call, number, copied in (
            ("write", 1, ""),
            ("write", 2, TEXT[:PIECE]),
            ("fdatasync", 1, TEXT),
            ("fsync", 1, TEXT),
            ("ftruncate", 1, TEXT),
        ):
            self.log.write_text(TEXT)
            self.killed(call, number, TEXT, copied)
            self.salvages(f"after a kill at {call} {number}")

    def kills_again(self) -> None:
        """Each salvage that is killed in its midst comes further than the one before."""
        self.log.write_text(TEXT)
        for count in range(1, 5):
            self.killed("write", 2, TEXT, TEXT[:count * PIECE])
        self.killed("ftruncate", 1, TEXT, TEXT)
        self.killed("ftruncate", 1, TEXT, TEXT)
        self.salvages("after many kills")

    def kill_after_the_cut(self) -> None:
        """A log that was cut isn't damaged any more: its copy stays as it is."""
        self.log.write_text(TEXT)
        self.killed("fdatasync", 2, KEPT, TEXT)
        got = ended(self.program, "", "--log", str(self.log), "--salvage")
        self.checks.check("after a kill behind the cut", got, (0, greeting(1), ""))
        self.checks.check("after a kill behind the cut: log", self.log.read_text(), LEFT)
        is_whole = self.copy.read_text() == TEXT
        self.checks.check("after a kill behind the cut: copy", is_whole, True)
        self.copy.unlink()

    def all(self) -> None:
        self.begun()
        self.of_a_private_log()
        self.of_another_user()
        self.others()
        self.links()
        self.other_kinds()
        self.too_large()
        if not shutil.which("strace"):
            self.checks.skip("kills in the midst of a salvage: no strace")
            return
        self.kills()
        self.kills_again()
        self.kill_after_the_cut()
