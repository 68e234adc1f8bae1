"""The logs that redodb-live is started on while its calls fail, and what it has to answer and to
log then, by tests/shared/reference.py."""
from itertools import accumulate
from typing import NamedTuple

from shared import dumps
from shared.reference import Reference
from shared.talks import HEADER, greeting, is_change

# each of these is what one read gives
ROUNDS = [
    "3 file a.c 1\n3 lock a.o\n",
    "3 start a.o\n3 ifchange a.o a.c h\n4 lock b\n",
    "4 ood\n4 lock a.o\n",
    "3 done a.o 2\n3 end\n4 start b\n",
    "4 state b\n4 file a.c 1\n",
    "4 gone a.o\n4 ood\n",
]
NAMES = "a.c", "a.o", "b", "c", "h", "t"
QUESTIONS = ["9 names\n" + "".join(f"9 state {name}\n" for name in NAMES)]

CLOSED = "1 file c 1 => ok\n1 lock t => granted 1\n1 unlock t => ok\n2 gone c => ok\n"
HELD = "1 file c 1 => ok\n2 lock t => granted 1\n2 start t => ok\n1 lock a.c => granted 1\n"
OTHER = "2 gone c => refused self\n1 lock h => granted 1\n1 unlo"
DAMAGED = HEADER + HELD + OTHER


class Scenario(NamedTuple):
    """A log at the start, None if there is none; the lines that are kept of it, and the words. A
    copy is there if a salvage was begun before."""
    name: str
    text: str | None
    kept: str
    words: tuple[str, ...] = ()
    copy: str | None = None

    def is_synced(self) -> bool:
        return "--sync" in self.words

    def is_damaged(self) -> bool:
        return "--salvage" in self.words

    def report(self, log: str) -> str:
        """What is said of a log that was salvaged."""
        lines, cut = max(self.kept.count("\n") - 1, 0), len(self.text or "") - len(self.kept)
        return f"redodb-live: {log}: {lines} lines kept, {cut} bytes cut off\n"


LOGS = [
    Scenario("a new log", None, ""),
    Scenario("an empty log", "", ""),
    Scenario("a torn header", HEADER[:7], ""),
    Scenario("a log with lines", HEADER + CLOSED, HEADER + CLOSED),
    Scenario("a torn line", HEADER + HELD + "2 done t 1 =", HEADER + HELD),
    Scenario("sessions left open", HEADER + HELD, HEADER + HELD),
    Scenario("a damaged line", DAMAGED, HEADER + HELD, ("--salvage",)),
    Scenario("a copy that was begun", DAMAGED, HEADER + HELD, ("--salvage",), DAMAGED[:50]),
    Scenario("a copy that is whole", DAMAGED, HEADER + HELD, ("--salvage",), DAMAGED),
    Scenario("another file", "history 1\n1 ood => ood\n", "", ("--salvage",)),
]


def lines_in(log: str) -> int:
    """How many lines a log has after its header or its dump."""
    text = log.encode("latin-1")
    if text.startswith(dumps.HEADER):
        text = dumps.read_dump(text.removeprefix(dumps.HEADER))[1]
    return text.removeprefix(HEADER.encode()).count(b"\n")


class Wanted:
    """What is answered and logged, step by step, after the lines that were kept of a log. The
    first step is the start, and each round of lines is one more."""

    def __init__(self, kept: str, rounds: list[str], is_compacting: bool = False) -> None:
        self.reference = Reference()
        begin = kept.encode("latin-1")
        if begin:
            self.reference = dumps.left_by(begin)
        cells = self.reference.cells.items()
        self.files = {name: cell.file for name, cell in cells if cell.file is not None}
        holders = {cell.holder for _, cell in cells if cell.holder}
        closed = "".join(self.closing(session) for session in sorted(holders))
        log = (kept or HEADER) + closed
        if is_compacting:
            log = (dumps.HEADER + dumps.dump_of(self.reference)).decode("ascii")
        self.answers, self.logs = [greeting(lines_in(kept))], [log]
        for lines_asked in rounds:
            self.ask(lines_asked)
        self.said, self.log = "".join(self.answers), "".join(self.logs)

    def do(self, session: int, command: str) -> str:
        """The line of a history that a command gives."""
        return f"{session} {command} => {self.reference.answer(session, command)}\n"

    def closing(self, session: int) -> str:
        """The lines that close a session."""
        lines: list[str] = []
        while (command := self.reference.closing(session)) is not None:
            lines.append(self.do(session, command))
        return "".join(lines)

    def answer(self, line: str) -> tuple[str, str]:
        """What is answered to a line: first lines of a history, and then what is none."""
        session, word, *names = line.split(" ")
        if word == "end":
            return self.closing(int(session)), f"{session} end => ok\n"
        if word == "names":
            return "", f"{line} => {self.reference.names()}\n"
        if word == "state":
            return "", f"{line} => {self.reference.state(names[0])}\n"
        return self.do(int(session), " ".join([word, *names])), ""

    def ask(self, lines: str) -> None:
        pairs = [self.answer(line) for line in lines.splitlines()]
        told = "".join(done for done, _ in pairs).splitlines(keepends=True)
        self.answers.append("".join(done + other for done, other in pairs))
        self.logs.append("".join(line for line in told if is_change(self.files, line)))

    def needed(self, said: int) -> int:
        """How long the log has to be before so many bytes were answered."""
        ends = zip(accumulate(map(len, self.answers)), accumulate(map(len, self.logs)))
        return next(log for answered, log in ends if said <= answered)
