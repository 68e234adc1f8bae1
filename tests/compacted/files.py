"""What is in the way when redodb-live compacts a log: LOG.new, folders, owners and modes."""
import contextlib
import fcntl
import os
import shutil
from collections.abc import Callable, Iterator
from pathlib import Path

from logs import after, compacted
from shared.dumps import left_by
from shared.reference import Reference
from shared.talks import HEADER, Checks, ended, greeting

# a log whose second session builds, and lines that come after it
TEXT = HEADER + "1 file c 1 => ok\n2 lock t => granted 1\n2 start t => ok\n"
TOLD = "3 lock t => granted 2\n3 file d 5 => ok\n"
ASKED = "3 lock t\n3 file d 5\n"
AFTER = after(TEXT.encode())
GREETING = greeting(3)
WORDS = ("--compact",), ("--compact", "--sync")
NO_OPTIONS: dict[str, object] = {}
# a user who isn't root
NOBODY = 65_534
# what a start that was killed can leave
LEFT = {
    "nothing": b"",
    "a byte": b"r",
    "a part of the header": b"redodb-log ",
    "a header": b"redodb-log 2\n",
    "a part of its counts": AFTER.compacted[:22],
    "a part of a dump": AFTER.compacted[:-1],
    "a dump": AFTER.compacted,
}
EMPTY_DUMP = compacted(Reference())
# what it can't leave
OTHERS = {
    "a note": b"precious\n",
    "a log": TEXT.encode(),
    "a part of it": b"redodb-log 1",
    "a zero": b"\0",
    "a later form": b"redodb-log 20\n",
    "a header after a line": b"\nredodb-log 2\n",
    "a dump and a line": AFTER.compacted + TOLD.encode(),
    "a dump and a byte": AFTER.compacted + b"1",
    "another dump": EMPTY_DUMP,
    # as a kill in the midst of a conversation can leave it
    "a dump of before the ends": compacted(left_by(TEXT.encode())),
    "a part of another dump": EMPTY_DUMP[:20],
    "another dump of this length": AFTER.compacted[:-2] + b"x\n",
}
# logs that have no line
EMPTY = {"no log": None, "an empty log": "", "a part of a header": HEADER[:8], "a header": HEADER}


def told_of(file: Path) -> object:
    """Which file has this name, if one does, and what it has; a FIFO isn't opened."""
    if not os.path.lexists(file):
        return None
    found = os.lstat(file)
    has: object = None
    if file.is_symlink():
        has = os.readlink(file)
    elif file.is_file():
        has = file.read_bytes()
    elif file.is_dir():
        has = sorted(os.listdir(file))
    return found.st_ino, found.st_mode, found.st_nlink, has


def is_root() -> bool:
    return os.geteuid() == 0


class Files:
    """The cases, in a folder of their own."""

    def __init__(self, program: Path, folder: Path, checks: Checks) -> None:
        self.folder, self.checks = folder / "files", checks
        self.folder.mkdir()
        # any user may run it
        for above in (folder, self.folder):
            above.chmod(0o755)
        self.program = Path(shutil.copy(program, self.folder / "program"))
        self.program.chmod(0o755)
        self.place = self.folder / "place"
        self.user = NO_OPTIONS
        if is_root():
            self.user = {"user": NOBODY, "group": NOBODY, "extra_groups": []}

    # Starts

    def begin(self) -> None:
        """A folder with the log alone."""
        if self.place.exists():
            self.place.chmod(0o755)
            shutil.rmtree(self.place)
        self.place.mkdir()
        self.log, self.new = self.place / "log", self.place / "log.new"
        self.log.write_text(TEXT)

    def compacts(
        self, name: str, *words: str, log: str = "log", how: dict[str, object] = NO_OPTIONS
    ) -> None:
        """The log is compacted, and goes on."""
        got = ended(self.program, ASKED, "--log", log, *words, cwd=self.place, **how)
        self.checks.check(name, got, (0, GREETING + TOLD, ""))
        wanted = AFTER.compacted + TOLD.encode()
        self.checks.check(f"{name}: log", self.log.read_bytes(), wanted)
        self.checks.check(f"{name}: LOG.new", os.path.lexists(self.new), False)

    def goes_on(
        self,
        name: str,
        cause: str,
        *words: str,
        log: str = "log",
        how: dict[str, object] = NO_OPTIONS,
    ) -> None:
        """The log isn't compacted for this cause, and goes on as it was."""
        before = self.log.stat()
        got = ended(self.program, ASKED, "--log", log, *words, cwd=self.place, **how)
        told = f"redodb-live: {log}.new: {cause}\n"
        self.checks.check(name, got, (0, GREETING + TOLD, told))
        wanted = AFTER.whole + TOLD.encode()
        self.checks.check(f"{name}: log", self.log.read_bytes(), wanted)
        now = self.log.stat()
        same = [(found.st_ino, found.st_mode, found.st_uid) for found in (before, now)]
        self.checks.check(f"{name}: the log's file", same[1], same[0])

    # LOG.new

    def is_in_the_way(self, name: str, *other: Path) -> None:
        """What has the name LOG.new stays as it is, and what it leads to."""
        for words in WORDS:
            self.log.write_text(TEXT)
            files = self.new, *other
            before = [told_of(file) for file in files]
            self.goes_on(f"LOG.new is {name}, {words[-1]}", "is there already", *words)
            now = [told_of(file) for file in files]
            self.checks.check(f"LOG.new is {name}, {words[-1]}: it stays", now, before)

    def other_kinds(self) -> None:
        kinds: dict[str, Callable[[Path], None]] = {"a folder": Path.mkdir, "a FIFO": os.mkfifo}
        for name, make in kinds.items():
            self.begin()
            make(self.new)
            self.is_in_the_way(name)

    def links(self) -> None:
        """A link isn't followed, whatever it leads to; nor is a file with another name written."""
        other = self.place / "other"
        for text in (b"", b"precious\n", AFTER.compacted):
            self.begin()
            other.write_bytes(text)
            self.new.symlink_to("other")
            self.is_in_the_way(f"a link to {text!r}", other)
            self.new.unlink(missing_ok=True)
            self.new.hardlink_to(other)
            self.is_in_the_way(f"a second name of {text!r}", other)
        for to in ("nothing", "log.new", "log", "/dev/full"):
            self.begin()
            self.new.symlink_to(to)
            self.is_in_the_way(f"a link to {to}")
            files = sorted(os.listdir(self.place))
            self.checks.check(f"a link to {to}: files", files, ["log", "log.new"])

    def left_files(self) -> None:
        """A file that was left is used; any other stays."""
        for name, text in LEFT.items():
            for words in WORDS:
                self.begin()
                self.new.write_bytes(text)
                self.compacts(f"LOG.new was left with {name}, {words[-1]}", *words)
        for name, text in OTHERS.items():
            self.begin()
            self.new.write_bytes(text)
            self.is_in_the_way(f"a file with {name}")

    def locked(self) -> None:
        """A file that another process has isn't used."""
        self.begin()
        with self.new.open("wb") as file:
            fcntl.flock(file, fcntl.LOCK_EX)
            self.is_in_the_way("locked")
        self.log.write_text(TEXT)
        self.compacts("LOG.new is free again", "--compact")

    # Folders and owners

    @contextlib.contextmanager
    def folder_of(self, mode: int) -> Iterator[None]:
        """The folder has this mode, and all belongs to a user who isn't root."""
        if is_root():
            for file in (self.place, *self.place.iterdir()):
                os.chown(file, NOBODY, NOBODY)
        self.place.chmod(mode)
        try:
            yield
        finally:
            self.place.chmod(0o755)

    def folders(self) -> None:
        """A folder in which nothing can be made, and one that can't be opened."""
        for mode, name in ((0o555, "a folder to read"), (0o333, "a folder to write")):
            self.begin()
            with self.folder_of(mode):
                self.goes_on(name, "cannot open", "--compact", how=self.user)
            files = os.listdir(self.place)
            self.checks.check(f"{name}: files", files, ["log"])
        self.begin()
        self.new.write_bytes(b"")
        with self.folder_of(0o555):
            self.goes_on("LOG.new in a folder to read", "cannot rename", "--compact", how=self.user)
        self.checks.check("a new log stays there", self.new.read_bytes(), AFTER.compacted)
        self.log.write_text(TEXT)
        with self.folder_of(0o755):
            self.compacts("the folder is one to write again", "--compact", how=self.user)

    def owners(self) -> None:
        """A log of another user or group stays theirs."""
        if not is_root():
            self.checks.skip("logs of others: only root can make them")
            return
        for user, group in ((NOBODY, 0), (0, NOBODY), (NOBODY, NOBODY)):
            for words in WORDS:
                self.begin()
                os.chown(self.log, user, group)
                name = f"a log of {user}:{group}, {words[-1]}"
                self.goes_on(name, "would have another owner", *words)
                self.checks.check(f"{name}: files", os.listdir(self.place), ["log"])
        self.begin()
        with self.folder_of(0o755):
            self.compacts("a log of one's own", "--compact", how=self.user)
        owner = self.log.stat()
        self.checks.check("one's own", (owner.st_uid, owner.st_gid), (NOBODY, NOBODY))

    def modes(self) -> None:
        """The new log may be read and written by whom the log may be, whatever the mask."""
        for mode in (0o600, 0o640, 0o644, 0o660, 0o666):
            for mask in (0, 0o77):
                for left in (None, b"redodb-log 2\n"):
                    self.begin()
                    self.log.chmod(mode)
                    if left is not None:
                        self.new.write_bytes(left)
                        self.new.chmod(0o604)
                    name = f"a log of mode {mode:o}, mask {mask:o}, left {left!r}"
                    self.compacts(name, "--compact", how={"umask": mask})
                    got = self.log.stat().st_mode & 0o7777
                    self.checks.check(f"{name}: mode", oct(got), oct(mode))

    # Names

    def names(self) -> None:
        """By whatever name the log is opened, the file beside it has that name and `.new`."""
        for form in ("log", "./log", "../way/log", "{}/log"):
            self.begin()
            way = self.folder / "way"
            way.unlink(missing_ok=True)
            way.symlink_to("place")
            log = form.format(self.place)
            self.compacts(f"the name {form}", "--compact", log=log)
            self.log.write_text(TEXT)
            self.new.mkdir()
            self.goes_on(f"the name {form}, in use", "is there already", "--compact", log=log)

    def no_lines(self) -> None:
        """A log without a line is compacted, too, if that is asked for."""
        head = compacted(Reference())
        for name, text in EMPTY.items():
            for words in WORDS:
                self.begin()
                self.log.unlink()
                if text is not None:
                    self.log.write_text(text)
                line = "3 file d 5 => ok\n"
                got = ended(self.program, "3 file d 5\n", "--log", str(self.log), *words)
                self.checks.check(f"{name}, {words[-1]}", got, (0, greeting(0) + line, ""))
                wanted = head + line.encode()
                self.checks.check(f"{name}, {words[-1]}: log", self.log.read_bytes(), wanted)
                files = os.listdir(self.place)
                self.checks.check(f"{name}, {words[-1]}: files", files, ["log"])

    def all(self) -> None:
        self.other_kinds()
        self.links()
        self.left_files()
        self.locked()
        self.folders()
        self.owners()
        self.modes()
        self.names()
        self.no_lines()
        self.begin()
