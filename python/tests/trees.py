"""Small trees of files in a temporary folder, and what a recorded history says of them."""

import contextlib
import io
import os
import shutil
import subprocess
import tempfile
import unittest
from collections.abc import Iterator
from pathlib import Path

import beside  # noqa: F401
from redodb.conversation import Conversation
from redodb.errors import ServerError
from redodb.names import name_of, path_of
from redodb.stamps import stamp_of

TOP = Path(__file__).resolve().parent.parent.parent


def program_answers() -> bool:
    """Whether there is a redodb-live that runs here."""
    try:
        Conversation().close()
    except ServerError:
        return False
    return True


def has_tools(*tools: str) -> bool:
    """Whether these tools and a redodb-live are there."""
    return all(map(shutil.which, tools)) and program_answers()


def is_proved(crate: str) -> bool:
    """Whether the crate's program is proved, and no older than its sources."""
    words = [str(TOP / "tools/proved"), crate]
    return subprocess.run(words, capture_output=True, check=False).returncode == 0


class TreeTest(unittest.TestCase):
    """A test in a temporary folder of its own, which goes with it."""

    def setUp(self) -> None:
        room = tempfile.TemporaryDirectory(ignore_cleanup_errors=True)
        self.addCleanup(room.cleanup)
        self.top = Path(room.name).resolve()

    def write(self, name: str, text: str) -> Path:
        """Write a file of the tree, and the folders that it is in."""
        path = self.top / name
        path.parent.mkdir(parents=True, exist_ok=True)
        path.write_text(text)
        return path

    def run_tool(self, *words: str) -> str:
        """Return what a program prints in the tree. It must end well."""
        run = subprocess.run(words, cwd=self.top, capture_output=True, text=True, check=False)
        self.assertEqual(run.returncode, 0, run.stdout + run.stderr)
        return run.stdout

    def age(self, name: str, seconds: float) -> None:
        """Make a file older by these seconds, or newer if they are negative."""
        path = self.top / name
        status = path.stat()
        time = status.st_mtime_ns - int(seconds * 1_000_000_000)
        os.utime(path, ns=(time, time))

    @contextlib.contextmanager
    def touched(self, name: str, added: str = "") -> Iterator[None]:
        """A file is newer than all others inside the block, and as before after it."""
        path = self.top / name
        before, text = path.stat(), path.read_text() if path.is_file() else ""
        newest = max(file.stat().st_mtime_ns for file in self.top.rglob("*")) + 1_000_000_000
        if added:
            path.write_text(text + added)
        os.utime(path, ns=(newest, newest))
        yield
        if added:
            path.write_text(text)
        os.utime(path, ns=(before.st_atime_ns, before.st_mtime_ns))

    def edited(self, name: str) -> contextlib.AbstractContextManager[None]:
        """A file is newer than all others, and has a line more, inside the block."""
        return self.touched(name, "\n")

    def recorded(self, *words: str) -> list[str]:
        """Return the lines of the history of `redodb record` of the tree, without the header."""
        status, out, errors = record(words[0], str(self.top), *words[1:])
        self.assertEqual((status, errors), (0, ""))
        header, *lines = out.splitlines()
        self.assertEqual(header, f"history {len(lines)}")
        return lines

    def name(self, path: str) -> str:
        """Return the name of a file of the tree."""
        return name_of(os.fsencode(self.top / path), os.fsencode(self.top)).decode()

    def out_of_date(self, lines: list[str]) -> set[str]:
        """Return the paths of the targets that are out of date after a history and a look."""
        top = os.fsencode(self.top)
        names = {line.split(" ")[2].encode() for line in lines}
        with Conversation() as database:
            answers = list(database.ask_all(line.partition(" => ")[0].encode() for line in lines))
            self.assertEqual([answer.decode() for answer in answers], lines)
            for name in sorted(names):
                stamp = stamp_of(path_of(name, top))
                known = database.ask(b"1 state " + name).split(b" ")[-1]
                if known != (stamp or "-").encode():
                    database.ask(
                        b"1 file %b %b" % (name, stamp.encode()) if stamp else b"1 gone " + name
                    )
            found = {
                name
                for name in names
                if database.ask(b"1 why " + name) != b"1 why %b => clean" % name
            }
        return {os.fsdecode(os.path.relpath(path_of(name, top), top)) for name in found}


class AgreeTest(TreeTest):
    """A tree of old files, of which a tool and a recorded history are to say the same."""

    files: dict[str, str] = {}
    phony: set[str] = set()

    def setUp(self) -> None:
        super().setUp()
        for name, text in self.files.items():
            self.write(name, text)
            self.age(name, 100)

    def wanted(self) -> set[str]:
        """Return what the tool would build."""
        raise NotImplementedError

    def assert_agrees(self, lines: list[str]) -> set[str]:
        """What is out of date after this history is what the tool would build. Return it."""
        wanted = self.wanted()
        self.assertEqual(self.out_of_date(lines) - self.phony, wanted)
        return wanted


def record(*words: str) -> tuple[int, str, str]:
    """Return the status, standard output and standard error of `redodb record` with these words."""
    from redodb.record.main import main

    out, errors = io.TextIOWrapper(io.BytesIO()), io.StringIO()
    with contextlib.redirect_stdout(out), contextlib.redirect_stderr(errors):
        status = main(list(words))
    out.seek(0)
    return status, out.read(), errors.getvalue()
