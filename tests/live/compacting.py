"""Logs of redodb-live in whose place a dump is put: by which words, when, and by way of log.new."""
import fcntl
import os
import re
from pathlib import Path

from logs import CLOSED, HELD
from shared import dumps
from shared.processes import Ended
from shared.talks import HEADER, Checks, Talk, ended, fault, greeting

# fewer bytes of lines stay as they are
LEAST = 4_194_304
LINE = "1 file a {} => ok\n"
MOST_STAMP, MOST_NAME = 64, 255
# logs, how many of their lines are restored, and the dumps that take their places, by hand
WORKED = {
    "nothing": (
        "",
        0,
        """\
redodb-log 2
state 0 0 49d53525733ab592fe7182d48f3e73401a9763ca
""",
    ),
    "a name that was locked": (
        """\
redodb-log 1
1 file a.c 10 => ok
1 lock a.o => granted 1
1 unlock a.o => ok
""",
        3,
        """\
redodb-log 2
state 2 28 4f1d099f308cf3809ca62f8c9d0730e964cb7c39
a.c 10
a.o - idle 0 = - 1 -
""",
    ),
    "two sessions hold something": (
        """\
redodb-log 1
1 lock t => granted 1
1 start t => ok
2 lock b => granted 1
""",
        3,
        """\
redodb-log 2
state 2 40 392ccde0f55eff3ac942dde54ee60cbf10afd97f
t - failed 0 = - 1 -
b - idle 0 = - 1 -
""",
    ),
    "the last line is torn": (
        """\
redodb-log 1
1 lock t => granted 1
1 start t => o""",
        1,
        """\
redodb-log 2
state 1 19 ee69b9a07e524ee552f80ffe055be5fdd4b452f9
t - idle 0 = - 1 -
""",
    ),
    "a dump, and a line after it": (
        """\
redodb-log 2
state 1 7 5e1008b3e327008c809c188e0f64cbc1c1b806d7
a.c 10
1 gone a.c => ok
""",
        1,
        """\
redodb-log 2
state 1 6 09cf58dadaffe0cbcf1452980379aa9f911c5c49
a.c -
""",
    ),
}


def compacted(log: str) -> str:
    """The log that a dump of what is known after this one makes."""
    return (dumps.HEADER + dumps.dump_of(dumps.left_by(log.encode()))).decode()


def line_of(size: int, digit: str) -> str:
    """A line of so many bytes. It gives the name `a` a file stamp of this digit."""
    return LINE.format(digit * (size - len(LINE.format(""))))


def lines_of(size: int) -> str:
    """Lines of so many bytes in all, each of which changes something."""
    most = len(LINE.format("")) + MOST_STAMP
    count, left = divmod(size, most)
    # the last two lines share what is left, and the bytes of one more
    left += most
    long = [line_of(most, "01"[at % 2]) for at in range(count - 1)]
    return "".join(long) + line_of(left // 2, "2") + line_of(left - left // 2, "3")


def dump_of_bytes(least: int) -> str:
    """A log of a dump alone, which has so many bytes at least."""
    count = least // MOST_NAME + 1
    body = "".join(f"{number:0{MOST_NAME}} -\n" for number in range(count))
    return (dumps.HEADER + dumps.summed(count, body.encode())).decode()


class Compacting:
    """The cases, in a folder of their own."""

    def __init__(self, program: Path, folder: Path, checks: Checks) -> None:
        self.program, self.folder, self.checks = program, folder / "compacting", checks
        self.folder.mkdir()
        self.log = self.folder / "log"
        self.new = self.folder / "log.new"
        self.damaged = self.folder / "log.damaged"

    def start(self, *words: str) -> Ended:
        return ended(self.program, "", "--log", str(self.log), *words)

    def leaves(self, name: str, text: str, wanted: str, restored: int, *words: str) -> None:
        """A start by these words on a log with this text says nothing else, and leaves this one."""
        self.log.write_text(text)
        name = " ".join([name, *words])
        self.checks.check(name, self.start(*words), (0, greeting(restored), ""))
        self.checks.check(f"{name}: the log", self.log.read_text(), wanted)
        self.checks.check(f"{name}: no new log is left", self.new.exists(), False)

    # By which words, and when

    def words(self) -> None:
        """A short log is compacted only if that is asked; the sessions that it left are ended first."""
        dumped = compacted(HELD + CLOSED)
        self.leaves("an empty file", "", compacted(HEADER), 0, "--compact")
        self.leaves("an empty file", "", HEADER, 0, "--whole")
        for words in ((), ("--sync",)):
            self.leaves("short", HELD, HELD + CLOSED, 3, *words)
            self.leaves("short", HELD, HELD + CLOSED, 3, *words, "--whole")
            self.leaves("short", HELD, dumped, 3, "--compact", *words)
            self.leaves("a torn line", HELD + "2 done t 1 =", dumped, 3, *words, "--compact")
            more = "1 file a 2 => ok\n"
            for word in ((), ("--whole",)):
                self.leaves("a dump", dumped + more, dumped + more, 1, *words, *word)
            again = compacted(HELD + CLOSED + more)
            self.leaves("a dump", dumped + more, again, 1, *words, "--compact")
            self.leaves("a dump, once more", again, again, 0, *words, "--compact")

    def worked(self) -> None:
        """A line comes after the dump; the next start finds both."""
        line = "3 lock c => granted 1\n"
        for name, (text, restored, dumped) in WORKED.items():
            self.log.write_text(text)
            words = "--log", str(self.log), "--compact", "--sync"
            got = ended(self.program, "3 lock c\n", *words)
            self.checks.check(name, got, (0, greeting(restored) + line, ""))
            self.checks.check(f"{name}: the log", self.log.read_text(), dumped + line)
            left = dumped + line + "3 unlock c => ok\n"
            self.leaves(f"{name}, once more", dumped + line, left, 1)

    def salvaged(self) -> None:
        """A damaged log is copied and cut first."""
        text = HELD + "2 done t 1 => no\n"
        self.log.write_text(text)
        told = f"redodb-live: {self.log}: 3 lines kept, {len(text) - len(HELD)} bytes cut off\n"
        got = self.start("--salvage", "--compact")
        self.checks.check("salvaged", got, (0, greeting(3), told))
        self.checks.check("salvaged: the log", self.log.read_text(), compacted(HELD + CLOSED))
        self.checks.check("salvaged: the copy", self.damaged.read_text(), text)

    def in_time(self) -> None:
        """Without the words a log is compacted if its lines have 4 MiB, and twice what is before."""
        for head in (HEADER, dump_of_bytes(LEAST // 2 + 1000)):
            least = max(LEAST, 2 * len(head))
            short, long = head + lines_of(least - 1), head + lines_of(least)
            name = f"{least} bytes of lines"
            self.leaves(f"{name} less 1", short, short, short.count(" => "))
            self.leaves(f"{name} less 1", short, compacted(short), short.count(" => "), "--compact")
            self.leaves(name, long, long, long.count(" => "), "--whole")
            self.leaves(name, long, compacted(long), long.count(" => "))

    def too_long(self) -> None:
        """A dump of more than half the bytes doesn't come without being asked for."""
        line = "1 file {:0255} 1 => ok\n"
        count = LEAST // len(line.format(0)) + 1
        log = HEADER + "".join(line.format(number) for number in range(count))
        self.leaves("a long dump", log, log, count)
        self.leaves("a long dump", log, compacted(log), count, "--compact")

    # The new file, and the old one

    def is_kept(self, name: str, cause: str) -> None:
        """The log isn't compacted for this cause, which is told, and goes on."""
        self.log.write_text(HELD)
        told = f"redodb-live: {self.new}: {cause}\n"
        self.checks.check(name, self.start("--compact"), (0, greeting(3), told))
        self.checks.check(f"{name}: the log", self.log.read_text(), HELD + CLOSED)

    def other_files(self) -> None:
        """Another file stays as it is."""
        there = "is there already"
        dumped = compacted(HELD + CLOSED)
        more, less = dumped + "1 gone a => ok\n", compacted(HEADER)
        for text in ("precious", HEADER, "redodb-log 2 ", "redodb-log 3\n", "\0", more, less):
            self.new.write_text(text)
            self.is_kept(f"log.new is {text!r}", there)
            self.checks.check(f"log.new is {text!r} still", self.new.read_text(), text)
        self.new.write_text("")
        (self.folder / "second").hardlink_to(self.new)
        self.is_kept("log.new with another link", there)
        (self.folder / "second").unlink()
        with self.new.open("r+") as file:
            fcntl.flock(file, fcntl.LOCK_EX)
            self.is_kept("log.new of another process", there)
        self.new.unlink()
        self.new.symlink_to("nothing")
        self.is_kept("log.new is a link", there)
        self.checks.check("log.new is a link still", os.readlink(self.new), "nothing")
        self.new.unlink()
        self.new.mkdir()
        self.is_kept("log.new is a folder", there)
        self.new.rmdir()

    def left_over(self) -> None:
        """What a start that was killed left is overwritten."""
        dumped = compacted(HELD + CLOSED)
        for text in ("", "redodb", dumps.HEADER.decode(), dumped[:-1], dumped):
            self.new.write_text(text)
            self.leaves(f"log.new is {text!r}", HELD, dumped, 3, "--compact")

    def owners(self) -> None:
        """The new log may be read by whom the old one may; another's log isn't replaced."""
        for mode in (0o600, 0o640, 0o644):
            self.log.write_text(HELD)
            self.log.chmod(mode)
            self.checks.check(f"mode {mode:o}", self.start("--compact"), (0, greeting(3), ""))
            self.checks.check(f"mode {mode:o} after it", self.log.stat().st_mode & 0o7777, mode)
        if os.geteuid() != 0:
            self.checks.skip("logs of another owner: not root")
            return
        for owner in ((1, -1), (-1, 1)):
            os.chown(self.log, *owner)
            self.is_kept(f"a log of another owner {owner}", "would have another owner")
            self.checks.check(f"{owner}: no new log is left", self.new.exists(), False)
            os.chown(self.log, os.geteuid(), os.getegid())

    def in_use(self) -> None:
        """The new log is locked as the old one was, and takes the lines."""
        self.log.write_text(HELD)
        talk = Talk(self.program, self.folder, "--log", str(self.log), "--compact")
        self.checks.check("in use: greeting", talk.hear(), greeting(3))
        for word in ("--compact", "--whole"):
            self.checks.check(f"in use, {word}", self.start(word), fault(f"{self.log}: in use"))
        talk.send("1 lock b\n")
        self.checks.check("in use: an answer", talk.hear(), "1 lock b => granted 1\n")
        log = compacted(HELD + CLOSED) + "1 lock b => granted 1\n"
        self.checks.check("in use: the log", self.log.read_text(), log)
        self.checks.check("in use: the end", talk.end(), (0, ""))

    def damage(self) -> None:
        """A dump that was damaged is refused, by any words, and stays as it is."""
        dumped = compacted(HELD + CLOSED)
        at = dumped.index("\n", len(HEADER)) - 1
        other = "1" if dumped[at] == "0" else "0"
        sum_differs = dumped[:at] + other + dumped[at + 1 :]
        for name, text in {
            "the sum": sum_differs,
            "a stamp": dumped.replace("a 1\n", "a 2\n"),
            "a line less": dumped[: dumped.rindex("\n", 0, -1) + 1],
            "torn": dumped[:-1],
            "a header alone": dumps.HEADER.decode(),
        }.items():
            self.checks.check(f"damage: {name}: differs", text != dumped, True)
            for words in ((), ("--salvage",), ("--compact",), ("--whole",)):
                self.log.write_text(text)
                self.damaged.unlink(missing_ok=True)
                status, said, errors = self.start(*words)
                line = rf"redodb-live: {re.escape(str(self.log))}: line [0-9]+: no state\n"
                is_said = re.fullmatch(line, errors) is not None
                told = f"damage: {name} {words}"
                self.checks.check(f"{told}: {errors!r}", (status, said, is_said), (2, "", True))
                kept = self.log.read_text(), self.damaged.exists(), self.new.exists()
                self.checks.check(f"{told}: the log", kept, (text, False, False))

    def all(self) -> None:
        self.words()
        self.worked()
        self.salvaged()
        self.in_time()
        self.too_long()
        self.other_files()
        self.left_over()
        self.owners()
        self.in_use()
        self.damage()
