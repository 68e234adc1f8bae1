"""Conversations that are drawn by chance: a log is compacted, and then answers as its copy that
isn't."""
import re
import shutil
from collections import Counter
from collections.abc import Callable
from pathlib import Path

from logs import after
from shared import databases
from shared.drawn import STEPS, Builds, Commands
from shared.dumps import HEADER
from shared.reference import Reference
from shared.talks import Checks, ended, greeting

# how many lines a first conversation has at most, and how many come after the dump
LINES, MORE = 250, 300
LISTS = "names", "ood", "targets", "sources"
ABOUT_ONE = "state", "deps", "users", "why"
# what has to be met in the dumps, and in the answers to why
STATES = {"idle", "built", "failed"}
MARKS = {"", "=", "f", "d", "b", "p", "a"}
REASONS = {"clean", "building", "failed", "edited", "always", "appeared", "changed"}
ROW = re.compile(r"(\+?)\d+(.?)")


def any_commands(seed: int, count: int) -> list[str]:
    """Any commands on a few names."""
    drawn = Commands(seed, "")
    targets = [drawn.one_of(drawn.names) for _ in range(count)]
    return [f"{drawn.session(target)} {drawn.command(target)}" for target in targets]


def builds(seed: int, count: int) -> list[str]:
    """Builds of targets that depend on each other."""
    drawn, reference = Builds(seed, ""), Reference()
    lines: list[str] = []
    while len(lines) < count:
        target = drawn.next_target(reference)
        for step in range(STEPS):
            session, command = drawn.owner(target), drawn.step(target, step)
            reference.answer(session, command)
            lines.append(f"{session} {command}")
    return lines[:count]


def database(seed: int, count: int) -> list[str]:
    """What makes a database whose sessions end now and then, and what asks about it, but for the
    questions that can have several answers."""
    lines: list[str] = []
    while len(lines) < count:
        made = databases.made(seed + len(lines), 0, False)
        lines += [line for line in made.lines if line.split(" ")[1] != "why"]
    return lines[:count]


MAKERS: list[Callable[[int, int], list[str]]] = [any_commands, builds, database]


def questions(reference: Reference) -> list[str]:
    """All questions about what is known, and about a name that isn't."""
    names = [*reference.named, "unknown"]
    about_one = [f"9 {word} {name}" for name in names for word in ABOUT_ONE]
    return [*(f"9 {word}" for word in LISTS), *about_one]


def is_right(reference: Reference, question: str, answer: str) -> bool:
    """Whether this answers a question."""
    said, _, told = answer.partition(" => ")
    if said != question:
        return False
    _, word, *names = question.split(" ")
    if names:
        return reference.is_right(word, names[0], told)
    return told == (reference.names() if word == "names" else reference.answer(9, word))


def is_next(reference: Reference, answer: str) -> bool:
    """Whether this is the next answer. A command is done then."""
    said, _, reply = answer.partition(" => ")
    session, _, command = said.partition(" ")
    word, *names = command.split(" ")
    if word == "end":
        return reply == "ok" and not reference.held(int(session))
    if word == "names" or word in ABOUT_ONE:
        return is_right(reference, said, answer)
    return reply == reference.answer(int(session), command)


def are_alike(one: str, other: str) -> bool:
    """Whether two answers are as alike as they have to be: two chains are if they are as long."""
    pair = one.split(" "), other.split(" ")
    return one == other or pair[0][1] == "why" and len(pair[0]) == len(pair[1])


class Talks:
    """The cases, in a folder of their own."""

    def __init__(self, program: Path, folder: Path, checks: Checks) -> None:
        self.program, self.checks = program, checks
        self.log, self.whole = folder / "log", folder / "whole"
        # what was met in dumps, and how often each answer came to why
        self.states: Counter[str] = Counter()
        self.marks: Counter[str] = Counter()
        self.told: Counter[str] = Counter()

    def start(self, name: str, log: Path, lines: list[str], *words: str) -> list[str]:
        """The greeting and the answers to these lines, sent ahead."""
        text = databases.text_of(lines)
        status, said, errors = ended(self.program, text, "--log", str(log), *words)
        self.checks.check(f"{name}: status", (status, errors), (0, ""))
        return said.splitlines()

    def becomes(self, name: str, log: Path, restored: int, wanted: bytes, *words: str) -> None:
        """A start without any line leaves this log."""
        said = self.start(name, log, [], *words)
        self.checks.check(f"{name}: greeting", said, [greeting(restored).strip()])
        self.checks.check(f"{name}: log", log.read_bytes(), wanted)

    def met(self, dump: bytes) -> None:
        """Counts what a dump is made of."""
        lines = [line.split(" ") for line in dump.decode().splitlines()[2:]]
        self.states += Counter(line[2] for line in lines if len(line) == 8 and line[2] in STATES)
        rows = [ROW.match(row) for line in lines if line[0].isdigit() for row in line[2:]]
        self.marks += Counter(found[2] for found in rows if found is not None)

    def judge(
        self, name: str, asked: list[str], both: list[list[str]], reference: Reference
    ) -> None:
        """Both answer these questions as it has to be if this is known, and alike."""
        whole, compacted = both
        self.checks.check(f"{name}: answers", (len(whole), len(compacted)), (len(asked),) * 2)
        pairs = zip(whole, compacted)
        unlike = [(one, other) for one, other in pairs if not are_alike(one, other)]
        self.checks.check(f"{name}: alike", unlike, [])
        for answers in both:
            told = zip(asked, answers)
            wrong = [answer for line, answer in told if not is_right(reference, line, answer)]
            self.checks.check(f"{name}: right", wrong, [])
        chains = [answer.split(" ") for answer in compacted if " why " in answer]
        self.told += Counter(words[4] for words in chains)

    def go_on(self, name: str, reference: Reference, more: list[str]) -> None:
        """The two logs go on with the same lines, between the same questions."""
        logs, asked = (self.whole, self.log), questions(reference)
        before = [log.read_bytes() for log in logs]
        lines = [*asked, *more, *asked]
        both = [
            self.start(f"{name}, {word}", log, lines, word)[1:]
            for log, word in zip(logs, ("--whole", "--compact"))
        ]
        count = len(asked)
        self.judge(f"{name}, before", asked, [answers[:count] for answers in both], reference)
        middle, other = (answers[count:-count] for answers in both)
        self.checks.check(f"{name}: the same answers", other == middle, True)
        self.checks.check(f"{name}: all are answered", len(middle) >= len(more), True)
        wrong = [answer for answer in middle if not is_next(reference, answer)]
        self.checks.check(f"{name}: right answers", wrong, [])
        self.judge(f"{name}, after", asked, [answers[-count:] for answers in both], reference)
        texts = [log.read_bytes() for log in logs]
        kept = [text[: len(first)] for text, first in zip(texts, before)]
        self.checks.check(f"{name}: both logs begin as before", kept, before)
        gained = [text[len(first) :] for text, first in zip(texts, before)]
        self.checks.check(f"{name}: both logs gain the same", gained[1], gained[0])

    def talk(self, seed: int) -> None:
        """One conversation, and one that goes on from its log."""
        name, make = f"talk {seed}", MAKERS[seed % len(MAKERS)]
        for log in (self.log, self.whole):
            log.unlink(missing_ok=True)
        self.start(name, self.log, make(seed, 1 + seed * 41 % LINES))
        text = self.log.read_bytes()
        count = text.count(b"\n") - 1
        wanted = after(text)
        shutil.copy(self.log, self.whole)
        self.becomes(f"{name}, compacted", self.log, count, wanted.compacted, "--compact")
        self.becomes(f"{name}, compacted again", self.log, 0, wanted.compacted, "--compact")
        self.becomes(f"{name}, in time", self.log, 0, wanted.compacted)
        self.becomes(f"{name}, whole", self.whole, count, wanted.whole, "--whole")
        self.met(wanted.compacted.removeprefix(HEADER))
        self.go_on(name, wanted.reference, make(seed + 1_000_000, MORE))
        self.end(name)

    def end(self, name: str) -> None:
        """Both logs say the same in the end: their dumps are the same bytes."""
        wanted = after(self.whole.read_bytes()).compacted
        for log in (self.whole, self.log):
            self.start(f"{name}, {log.name} at last", log, [], "--compact")
            self.checks.check(f"{name}, {log.name} at last", log.read_bytes(), wanted)

    def all(self, count: int) -> None:
        for seed in range(count):
            self.talk(seed)
        told = ", ".join(f"{word} {number}" for word, number in self.told.most_common())
        print(f"{count} talks: {told}", flush=True)
        met = self.states.keys(), self.marks.keys(), self.told.keys()
        self.checks.check("all is met", met, (STATES, MARKS, REASONS))
