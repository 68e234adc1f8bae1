"""Large conversations with redodb-live: a million names, a thousand sessions at once, and a log that 65,535 sessions
left. What has to be answered is what the database of tests/shared/reference.py answers."""
import random
from pathlib import Path
from typing import Iterator

from shared.drawn import STEPS, Builds
from shared.reference import Reference
from shared.talks import HEADER, Checks, Talk, ended, greeting

NAMES = 1 << 20
# few, since the reference looks at all names for each of them
TARGETS = 10
MOST_SESSIONS = 65_535
# how many draw builds at once, two on the same names, and the sessions of each of them: 1,008 in all
CROWDS, OWN = 112, 9
# how many commands each of them draws
TURNS = 60
# lines that are sent together, so that neither side waits for the other
TOGETHER = 500


def answered(reference: Reference, line: str) -> str:
    """What has to be answered to a line."""
    word, _, command = line.partition(" ")
    session = int(word)
    if command != "end":
        return f"{line} => {reference.answer(session, command)}\n"
    said: list[str] = []
    while closing := reference.closing(session):
        said.append(f"{session} {closing} => {reference.answer(session, closing)}\n")
    return "".join(said) + f"{session} end => ok\n"


def million_lines() -> Iterator[str]:
    """A file for each name, and builds of targets that depend on names from everywhere."""
    for number in range(NAMES):
        yield f"{1 + number % MOST_SESSIONS} file n{number} {number}"
    for target in range(TARGETS):
        session = 1 + 7000 * target
        needed = " ".join(f"n{(7919 * target + 104_729 * at) % NAMES}" for at in range(8))
        yield f"{session} lock out{target}"
        yield f"{session} start out{target}"
        yield f"{session} ifchange out{target} {needed} out{(target + 1) % TARGETS}"
        yield f"{session} ifcreate out{target} absent{target}"
        yield f"{session} done out{target} {target}"
        if target % 3:
            yield f"{session} unlock out{target}"
    for target in range(0, TARGETS, 5):
        yield f"2 file n{7919 * target % NAMES} other"
    yield from ("3 ood", "65535 file absent7 1", "1 ood", "4 targets", "65535 sources", "1 end", "42001 end", "1 ood")


class Crowd:
    """One who draws the commands of builds: each target has a session of its own."""

    def __init__(self, number: int) -> None:
        self.number = number
        self.builds = Builds(number, f"{number // 2}/")
        self.target, self.step = self.builds.targets[0], 0

    def line(self, reference: Reference) -> str:
        """The next line: of the target's own session, or rarely of another."""
        if self.step == STEPS:
            self.target, self.step = self.builds.next_target(reference), 0
        command = self.builds.step(self.target, self.step)
        self.step += 1
        own = OWN * self.number + self.builds.names.index(self.target)
        session = 1 + 65 * (own if self.builds.below(32) else self.builds.below(OWN * CROWDS))
        return f"{session} {command if self.builds.below(64) else 'end'}"


class Large:
    """The cases, in a folder of their own."""

    def __init__(self, program: Path, folder: Path, checks: Checks) -> None:
        self.program, self.folder, self.checks = program, folder, checks

    def million_names(self) -> None:
        reference = Reference()
        lines = list(million_lines())
        wanted = greeting(0) + "".join(answered(reference, line) for line in lines)
        got = ended(self.program, "".join(f"{line}\n" for line in lines))
        self.checks.check("1,048,576 names", got == (0, wanted, ""), True)

    def thousand_sessions(self) -> None:
        """What is drawn depends on what was answered; the log is restored to the same answers."""
        reference = Reference()
        crowds = [Crowd(number) for number in range(CROWDS)]
        lines = [f"{1 + 65 * own} lock common{own % 100}" for own in range(OWN * CROWDS)]
        answers = [answered(reference, line) for line in lines]
        for turn in range(TURNS):
            for crowd in random.Random(turn).sample(crowds, CROWDS):
                lines.append(crowd.line(reference))
                answers.append(answered(reference, lines[-1]))
        log = self.folder / "thousand.log"
        got = ended(self.program, "".join(f"{line}\n" for line in lines), "--log", str(log))
        self.checks.check("1,000 sessions", got, (0, greeting(0) + "".join(answers), ""))
        kept = log.read_text().count("\n") - 1
        holders = {cell.holder for cell in reference.cells.values() if cell.holder is not None}
        for session in sorted(holders):
            answered(reference, f"{session} end")
        asked = ["9 ood", "9 targets", "9 sources"]
        wanted = greeting(kept) + "".join(answered(reference, line) for line in asked)
        got = ended(self.program, "".join(f"{line}\n" for line in asked), "--log", str(log))
        self.checks.check("1,000 sessions, restarted", got, (0, wanted, ""))

    def all_sessions_left(self) -> None:
        """Each of 65,535 sessions holds a lock, and each third builds, when the program is killed. The next start
        closes all of them, in their order."""
        log = self.folder / "left.log"
        talk = Talk(self.program, self.folder, "--log", str(log))
        talk.hear()
        sessions = [1 + 7 * at % MOST_SESSIONS for at in range(MOST_SESSIONS)]
        pairs = [pair for session in sessions for pair in held(session)]
        for first in range(0, len(pairs), TOGETHER):
            together = pairs[first:first + TOGETHER]
            talk.send("".join(f"{line}\n" for line, _ in together))
            heard = [talk.hear() for _ in together]
            if heard != [f"{line} => {reply}\n" for line, reply in together]:
                self.checks.check(f"65,535 sessions: lines from {first}", heard, together)
        talk.kill()
        told = "".join(f"{line} => {reply}\n" for line, reply in pairs)
        self.checks.check("65,535 sessions: the log", log.read_text() == HEADER + told, True)
        got = ended(self.program, "1 lock n65535\n65535 end\n", "--log", str(log))
        wanted = greeting(len(pairs)) + "1 lock n65535 => granted 2\n65535 end => ok\n"
        self.checks.check("65,535 sessions: the next start", got, (0, wanted, ""))
        closed = "".join(closing(session) for session in range(1, MOST_SESSIONS + 1))
        wanted = HEADER + told + closed + "1 lock n65535 => granted 2\n"
        self.checks.check("65,535 sessions: they are closed", log.read_text() == wanted, True)

    def all(self) -> None:
        self.million_names()
        self.thousand_sessions()
        self.all_sessions_left()


def held(session: int) -> list[tuple[str, str]]:
    """What a session says, and the replies: it holds a target, and may build it."""
    lock = (f"{session} lock n{session}", "granted 1")
    return [lock] if session % 3 else [lock, (f"{session} start n{session}", "ok")]


def closing(session: int) -> str:
    """The closing commands of that session."""
    failed = "" if session % 3 else f"{session} failed n{session} => ok\n"
    return f"{failed}{session} unlock n{session} => ok\n"
