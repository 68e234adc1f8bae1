"""Small trees: they are written, programs are run in them, and what came out is checked."""
import contextlib
import fcntl
import os
import pty
import re
import select
import shutil
import signal
import subprocess
import time
from dataclasses import dataclass, field
from pathlib import Path
from typing import Any, Callable, Iterator, Mapping

TOP = Path(__file__).resolve().parent.parent.parent
PROGRAM_FOLDER = Path(os.environ.get("REDO_PROGRAMS") or TOP / "redo/target/release").resolve()
SECONDS = 180.0
SERVER = "REDO_SERVER"
SERVER_IDLE = "3"
SERVER_WORDS = {b"--detach", b"--log"}


class Skipped(Exception):
    """A case can't run here; the text says why."""


@dataclass
class Checks:
    """Counts what passed and what failed, and prints what failed."""

    passed: int = 0
    failed: int = 0
    skipped: int = 0
    case: str = ""

    def same(self, what: str, got: object, wanted: object) -> None:
        """Checks that two values are equal."""
        if got == wanted:
            self.passed += 1
        else:
            self.failed += 1
            print(
                f"failed: {self.case}: {what}\n  got:    {got!r}\n  wanted: {wanted!r}", flush=True
            )

    def true(self, what: str, value: object) -> None:
        """Checks that a value is true."""
        self.same(what, bool(value), True)

    def has(self, what: str, text: str, part: str) -> None:
        """Checks that a text has a part."""
        if part in text:
            self.passed += 1
        else:
            self.failed += 1
            print(
                f"failed: {self.case}: {what}\n  got:    {text!r}\n  has no: {part!r}", flush=True
            )


@dataclass(frozen=True)
class Ended:
    """A program that has ended: its status, and what it printed."""

    status: int
    out: str
    err: str

    @property
    def lines(self) -> list[str]:
        """The lines of standard error."""
        return self.err.splitlines()

    @property
    def built(self) -> list[str]:
        """The targets of the lines `redo  TARGET`, in their order."""
        return [line[6:].strip() for line in self.lines if line.startswith("redo  ")]


@dataclass
class Tree:
    """A folder for one case. The programs that are tested are in front on its PATH: those of the
    folder $REDO_PROGRAMS, or else those of the repository.
    """

    folder: Path
    check: Checks
    live: str
    more: dict[str, str] = field(default_factory=dict)

    @property
    def environment(self) -> dict[str, str]:
        """The environment of programs, without the variables of a redo or make around them."""
        kept = {
            key: value
            for key, value in os.environ.items()
            if not key.startswith(("REDO", "MAKE", "MFLAGS", "NO_COLOR"))
        }
        if SERVER in os.environ:
            kept[SERVER] = os.environ[SERVER]
        kept |= {"REDO_IDLE": SERVER_IDLE, "REDODB_LIVE": self.live, "TERM": "xterm"}
        path = f"{PROGRAM_FOLDER}:{os.environ.get('PATH', os.defpath)}"
        return kept | {"PATH": path} | self.more

    def path(self, name: str | bytes = ".") -> Path:
        """Returns the path of a name."""
        return self.folder / os.fsdecode(name)

    def write(self, name: str | bytes, text: str) -> None:
        """Writes a file, and the folders above it.

        Its time differs from that of a file of the same name before.
        """
        path = self.path(name)
        path.parent.mkdir(parents=True, exist_ok=True)
        path.write_text(text)

    def files(self, **texts: str) -> None:
        """Writes files. In their names, `__` stands for a dot."""
        for name, text in texts.items():
            self.write(name.replace("__", "."), text)

    def read(self, name: str | bytes) -> str:
        """Returns the text of a file, or `(none)` if there is none."""
        try:
            return self.path(name).read_text()
        except FileNotFoundError:
            return "(none)"

    def count(self, name: str) -> int:
        """Returns the number of lines of a file, 0 if there is none: how often a script ran."""
        text = self.read(name)
        return 0 if text == "(none)" else text.count("\n")

    def same_words(self, target: str, first: str, second: str, folder: str) -> None:
        """Checks the arguments and the folder that a script wrote, with `|` in between."""
        third = first.rpartition("/")[2] + ".redo.N.tmp"
        wanted = f"{first}|{second}|{third}|{self.path(folder).resolve()}\n"
        got = re.sub(r"\.redo\.\d+\.tmp", ".redo.N.tmp", self.read(target))
        self.check.same(f"{target}: arguments and folder", got, wanted)

    def left_over(self) -> list[str]:
        """Returns the files that builds should have removed."""
        return sorted(str(path.relative_to(self.folder)) for path in self.folder.rglob("*.redo.*"))

    def start(
        self,
        *words: str | bytes,
        folder: str = ".",
        environment: Mapping[str, str] | None = None,
        **options: Any,
    ) -> "subprocess.Popen[bytes]":
        """Starts a program in a folder of the tree."""
        everything = self.environment | dict(environment or {})
        return subprocess.Popen(
            words,
            cwd=self.path(folder),
            env=everything,
            stdin=subprocess.DEVNULL,
            stdout=subprocess.PIPE,
            stderr=subprocess.PIPE,
            **options,
        )

    def run(
        self,
        *words: str | bytes,
        folder: str = ".",
        environment: Mapping[str, str] | None = None,
        **options: Any,
    ) -> Ended:
        """Runs a program to its end."""
        return ended(self.start(*words, folder=folder, environment=environment, **options))

    def redo(self, *words: str | bytes, **options: Any) -> Ended:
        """Runs `redo`, which has to succeed."""
        run = self.run("redo", *words, **options)
        self.check.same(f"redo {words}: status ({run.err[-300:]})", run.status, 0)
        return run

    def ifchange(self, *words: str | bytes, **options: Any) -> Ended:
        """Runs `redo-ifchange`, which has to succeed."""
        run = self.run("redo-ifchange", *words, **options)
        self.check.same(f"redo-ifchange {words}: status ({run.err[-300:]})", run.status, 0)
        return run

    def until(self, what: str, holds: Callable[[], object]) -> None:
        """Waits until something holds."""
        end = time.monotonic() + SECONDS
        while not holds():
            if time.monotonic() > end:
                raise TimeoutError(what)
            time.sleep(0.01)


def ended(process: "subprocess.Popen[bytes]") -> Ended:
    """Waits for a program's end."""
    try:
        out, err = process.communicate(timeout=SECONDS)
    except subprocess.TimeoutExpired:
        process.send_signal(signal.SIGTERM)
        out, err = process.communicate(timeout=SECONDS)
        raise TimeoutError(f"{process.args!r}: {os.fsdecode(err)[-500:]}") from None
    return Ended(process.returncode, os.fsdecode(out), os.fsdecode(err))


def on_terminal(tree: Tree, *words: str, environment: Mapping[str, str] | None = None) -> str:
    """Runs a program whose standard error is a terminal; returns what that shows."""
    mine, terminal = pty.openpty()
    everything = tree.environment | dict(environment or {})
    with subprocess.Popen(
        words, cwd=tree.folder, env=everything, stdin=terminal, stdout=terminal, stderr=terminal
    ) as process:
        os.close(terminal)
        shown = b""
        with contextlib.suppress(OSError):
            while select.select([mine], [], [], SECONDS)[0] and (block := os.read(mine, 65536)):
                shown += block
        process.wait(SECONDS)
    os.close(mine)
    return shown.decode(errors="replace")


@contextlib.contextmanager
def new_tree(folder: Path, check: Checks, live: str) -> Iterator[Tree]:
    """Yields an empty tree, and removes it afterwards."""
    folder.mkdir()
    try:
        yield Tree(folder, check, live)
    finally:
        shutil.rmtree(folder, ignore_errors=True)


def needs(program: str) -> None:
    """Skips a case if a program is missing."""
    if shutil.which(program) is None:
        raise Skipped(f"no {program}")


def program() -> str | None:
    """The database: $REDODB_LIVE, else ./redodb-live if it is proved; None if there is none, or if
    the programs of redo aren't built."""
    if not (PROGRAM_FOLDER / "redo").exists():
        return None
    chosen = os.environ.get("REDODB_LIVE")
    if chosen:
        return chosen
    mine = TOP / "redodb-live"
    talk = subprocess.run([mine], stdin=subprocess.DEVNULL, capture_output=True, check=False)
    return str(mine) if talk.returncode == 0 else None


def end_server(tree: Tree, top: str = ".") -> None:
    """Has the server of a tree end, which has nothing to do, and waits for its end."""
    server = tree.path(f"{top}/.redo/server")
    with contextlib.suppress(OSError, ValueError):
        if (server / "socket").exists():
            os.kill(int((server / "lock").read_text()), signal.SIGTERM)
    tree.until("the server ends", lambda: _is_free(server / "lock"))


def _is_free(lock: Path) -> bool:
    """Returns whether no process holds a lock."""
    try:
        with open(lock, "rb") as file:
            fcntl.flock(file, fcntl.LOCK_EX | fcntl.LOCK_NB)
    except BlockingIOError:
        return False
    except FileNotFoundError:
        return True
    return True


def sleepers(tree: Tree, with_server: bool) -> dict[int, list[bytes]]:
    """Returns the processes that run in the folder of a tree, each with its words.

    Those of the server, and of its database, are among them if they are asked for.
    """
    found: dict[int, list[bytes]] = {}
    for process in Path("/proc").iterdir():
        try:
            words = (process / "cmdline").read_bytes().split(b"\0")
            if _belongs(process, words, tree) and (with_server or not SERVER_WORDS & set(words)):
                found[int(process.name)] = words
        except (OSError, ValueError):
            continue
    return found


def _belongs(process: Path, words: list[bytes], tree: Tree) -> bool:
    """Returns whether a process runs in the folder of a tree, or has it among its words."""
    folder = tree.folder.resolve()
    return (process / "cwd").resolve() == folder or os.fsencode(folder) in words
