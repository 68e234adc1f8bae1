"""Damaged logs that begin with a dump: what redodb-live says of them, and what it leaves."""
import random
import re
from collections import Counter
from collections.abc import Iterator
from pathlib import Path

import worked_dump_lines
import worked_dumps
from changed_dumps import changed
from logs import after, compacted, end_all
from shared.drawn import STEPS, Builds
from shared.dumps import HEADER, NoDump, dump_of, load, summed
from shared.processes import Ended, Program
from shared.reference import Reference
from shared.talks import Checks, fault, greeting

# lines after the dump of the example of RULES
COMMANDS = [
    (1, "unlock a.o"),
    (2, "lock a.o"),
    (2, "start a.o"),
    (2, "ifchange a.o a.c y.h"),
    (2, "stamp a.o 61"),
    (3, "file new 7"),
    (2, "done a.o 21"),
    (4, "lock new"),
]
EXAMPLE = HEADER + worked_dumps.example()
# how many databases are drawn, and how often the lines of each dump are changed
DATABASES, CHANGES, BUILDS = 12, 60, 12
SALVAGING = ("--salvage",), ("--salvage", "--compact")
STARTS: tuple[tuple[str, ...], ...] = ((), *SALVAGING)
NO_STATE = re.compile(r"line (\d+): no state")


def told(reference: Reference, commands: list[tuple[int, str]]) -> list[bytes]:
    """The lines of these commands."""
    answers = (
        (session, command, reference.answer(session, command)) for session, command in commands
    )
    return [f"{session} {command} => {reply}\n".encode() for session, command, reply in answers]


LINES = told(load(EXAMPLE.removeprefix(HEADER)), COMMANDS)
# a line in the place of another, and which lines are right then
REPLIES = {
    "2 lock a.o": b"2 lock a.o => granted 3\n",
    "3 file new": b"3 file new => ok\n",
    "nothing": b"\n",
    "zeros": b"\0" * 30 + b"\n",
    "the header": HEADER,
    "the dump": worked_dumps.example(),
    "a list": b"1 ood => ood nothing\n",
}


def without(text: bytes, at: int) -> bytes:
    return text[:at] + text[at + 1 :]


def with_byte(text: bytes, at: int, byte: int) -> bytes:
    """A text with this byte in the place of another."""
    return text[:at] + bytes([byte]) + text[at + 1 :]


class Damage:
    """The cases, in a folder of their own."""

    def __init__(self, program: Path, folder: Path, checks: Checks) -> None:
        self.program, self.checks = Program(program), checks
        self.log, self.copy, self.new = (folder / f"log{end}" for end in ("", ".damaged", ".new"))
        self.said: Counter[str] = Counter()

    def started(self, text: bytes, *words: str) -> Ended:
        """What the program says if this is its log."""
        self.log.write_bytes(text)
        for file in (self.copy, self.new):
            file.unlink(missing_ok=True)
        return self.program.ended(b"", "--log", str(self.log), *words)

    def is_as_before(self, name: str, text: bytes) -> None:
        """The log has this text, and there is no other file."""
        others = [file.name for file in (self.copy, self.new) if file.exists()]
        self.checks.check(f"{name}: files", (self.log.read_bytes(), others), (text, []))

    # Dumps that are none

    def has_no_state(self, name: str, text: bytes, first: int, last: int, *words: str) -> None:
        """A start says so of the line of the sum, or of one from the first to the last; and it
        changes nothing."""
        got = self.started(text, *words)
        found = NO_STATE.search(got[2])
        line = int(found[1]) if found else 0
        self.said[f"line {line}" if line < 3 else "a later line"] += 1
        self.checks.check(name, got, fault(f"{self.log}: line {line}: no state"))
        self.checks.check(f"{name}: line {line}", line == 2 or first <= line <= last, True)
        self.is_as_before(name, text)

    def each_byte(self, name: str, dump: bytes, lines: bytes) -> None:
        """A byte of a dump has another value, or is lost, or comes twice; and the program is
        started in different ways."""
        last = dump.count(b"\n") + 2
        for at, byte in enumerate(dump):
            damaged = 2 + dump.count(b"\n", 0, at)
            others = {byte ^ 1, ord(" \n"[at % 2])} - {byte}
            texts = {f"is {other}": with_byte(dump, at, other) for other in sorted(others)}
            texts["is lost"] = without(dump, at)
            # the last LF that comes twice ends the dump, and an empty line after it
            if at < len(dump) - 1:
                texts["comes twice"] = dump[:at] + dump[at : at + 1] + dump[at:]
            for number, (change, text) in enumerate(texts.items()):
                first = damaged if change.startswith("is ") and damaged > 2 else 2
                log, words = HEADER + text + lines, STARTS[number % len(STARTS)]
                self.has_no_state(f"{name}: byte {at} {change}", log, first, last, *words)

    def beginnings(self) -> None:
        """A log that was cut within its dump isn't one of fewer lines."""
        for count in range(len(HEADER), len(EXAMPLE)):
            for words in STARTS:
                name = f"{count} bytes of a dump {words}"
                self.has_no_state(name, EXAMPLE[:count], 2, EXAMPLE.count(b"\n") + 1, *words)

    def headers(self) -> None:
        """A header with another byte is none of a log, or that of a log without a dump."""
        for at, byte in enumerate(HEADER):
            text = with_byte(EXAMPLE, at, byte ^ 1)
            got = self.started(text)
            self.checks.check(f"header: byte {at}", got, fault(f"{self.log}: line 1 differs"))
            self.is_as_before(f"header: byte {at}", text)
        text = EXAMPLE.replace(HEADER, b"redodb-log 1\n")
        got = self.started(text)
        self.checks.check("the other header", got, fault(f"{self.log}: line 2 differs"))
        self.is_as_before("the other header", text)

    # Lines that are changed, with their right sum

    def is_judged(self, name: str, text: bytes) -> None:
        """The program takes a text for a dump if the second reader does, and then ends the
        sessions of its database and writes that."""
        log = HEADER + text
        try:
            reference = load(text)
        except NoDump as cause:
            self.said["no dump"] += 1
            if str(cause) == "fewer commands":
                got = self.started(log, "--compact")
                self.checks.check(name, got, fault(f"{self.log}: worn"))
                self.is_as_before(name, log)
            else:
                self.has_no_state(name, log, 2, text.count(b"\n") + 2, "--compact")
            return
        self.said["a dump"] += 1
        got = self.started(log)
        self.checks.check(name, got, (0, greeting(0), ""))
        ends = end_all(reference)
        self.is_as_before(name, log + ends)
        got = self.started(log, "--compact")
        self.checks.check(f"{name}, compacted", got, (0, greeting(0), ""))
        self.is_as_before(f"{name}, compacted", compacted(reference))

    def worked_lines(self) -> None:
        """The first wrong line is named: that of the log, which has the header before its dump."""
        for names, body, line in worked_dump_lines.LINES:
            text = HEADER + worked_dump_lines.text_of(names, body)
            got = self.started(text, "--compact")
            name = f"{names} names: {body!r}"
            self.checks.check(name, got, fault(f"{self.log}: line {line + 1}: no state"))
            self.is_as_before(name, text)

    def databases(self) -> Iterator[tuple[int, Reference]]:
        """Databases that are drawn by chance, in the midst of their builds."""
        for seed in range(DATABASES):
            drawn, reference = Builds(seed, ""), Reference()
            for _ in range(BUILDS):
                target = drawn.next_target(reference)
                for step in range(STEPS):
                    reference.answer(drawn.owner(target), drawn.step(target, step))
            target = drawn.next_target(reference)
            for step in range(seed % STEPS):
                reference.answer(drawn.owner(target), drawn.step(target, step))
            yield seed, reference

    def resummed(self) -> None:
        for name, (_, text) in worked_dumps.DUMPS.items():
            self.is_judged(name, text)
        for names, lines in worked_dumps.TOLD:
            self.is_judged(f"told: {lines!r}", summed(names, lines.encode("latin-1")))
        for names, lines, _ in worked_dumps.OTHERS:
            self.is_judged(f"other: {lines!r}", summed(names, lines.encode("latin-1")))
        for text, cause in worked_dumps.OTHER_TEXTS.items():
            if cause != "nothing after the dump":
                self.is_judged(f"other: {text!r}", text)
        for seed, reference in self.databases():
            self.is_judged(f"database {seed}", dump_of(reference))
            choose, body = random.Random(seed), dump_of(reference).partition(b"\n")[2]
            for number in range(CHANGES):
                text = summed(len(reference.named), changed(choose, body))
                self.is_judged(f"database {seed}, change {number}", text)

    # Lines after a dump

    def torn(self) -> None:
        """What comes after the last LF is cut off; the dump and the lines before it stay."""
        lines = b"".join(LINES)
        for cut in range(len(lines) + 1):
            whole = lines[: lines.rfind(b"\n", 0, cut) + 1]
            wanted, count = after(EXAMPLE + whole), whole.count(b"\n")
            for words, log in (((), wanted.whole), (("--compact",), wanted.compacted)):
                got = self.started(EXAMPLE + lines[:cut], *words)
                self.checks.check(f"cut at {cut} {words}", got, (0, greeting(count), ""))
                self.is_as_before(f"cut at {cut} {words}", log)

    def differs(self, name: str, right: int, lines: list[bytes]) -> None:
        """So many lines after the dump are right, and the next one isn't."""
        kept = EXAMPLE + b"".join(lines[:right])
        text = EXAMPLE + b"".join(lines)
        number = kept.count(b"\n") + 1
        for words in ((), ("--compact",), ("--sync",)):
            got = self.started(text, *words)
            wanted = fault(f"{self.log}: line {number} differs")
            self.checks.check(f"{name} {words}", got, wanted)
            self.is_as_before(f"{name} {words}", text)
        gone = len(text) - len(kept)
        said = f"redodb-live: {self.log}: {right} lines kept, {gone} bytes cut off\n"
        for words, log in zip(SALVAGING, after(kept)[1:]):
            got = self.started(text, *words)
            self.checks.check(f"{name} {words}", got, (0, greeting(right), said))
            copy = self.copy.read_bytes() if self.copy.exists() else None
            self.checks.check(f"{name} {words}: copy", copy == text, True)
            self.copy.unlink(missing_ok=True)
            self.is_as_before(f"{name} {words}", log)

    def lines(self) -> None:
        """Each line in turn has another one in its place, is lost, or comes after the next."""
        for at, line in enumerate(LINES):
            for name, other in REPLIES.items():
                if other != line:
                    self.differs(f"line {at}: {name}", at, [*LINES[:at], other, *LINES[at + 1 :]])
            reply = line.replace(b" => ", b" => refused self", 1)
            self.differs(f"line {at}: its reply", at, [*LINES[:at], reply, *LINES[at + 1 :]])
        # without the unlock, the lock is in use; without the lock, nothing can start; and so on
        for at in (0, 1, 2):
            self.differs(f"line {at} is lost", at, [*LINES[:at], *LINES[at + 1 :]])
            both = [LINES[at + 1], LINES[at]]
            self.differs(f"line {at} comes later", at, [*LINES[:at], *both, *LINES[at + 2 :]])

    def all(self) -> None:
        for name, (_, dump) in worked_dumps.DUMPS.items():
            self.each_byte(name, dump, b"1 file more 1 => ok\n")
        self.beginnings()
        self.headers()
        self.worked_lines()
        self.resummed()
        self.torn()
        self.lines()
        tally = ", ".join(f"{word} {number}" for word, number in self.said.most_common())
        print(f"damaged dumps: {tally}", flush=True)
        met = {"line 2", "a later line", "no dump", "a dump"}
        self.checks.check("damaged dumps: all is met", self.said.keys(), met)
