"""Fails each call by which redodb-live compacts its log in the midst of a conversation, and kills
the program before it, after it, and within a write (tests/failing/compacting)."""
import errno
from itertools import takewhile
from pathlib import Path

from calls import AFTER, BEFORE, HALF, Call, Plan, Runner, Tried
from shared.long_logs import ENOUGH, PLAIN, SIZE, again, compacted, files_after, text_of
from shared.talks import Checks, ended, greeting

ERRORS = errno.EIO, BEFORE, AFTER
# calls that have to be met
CALLS = "create new", "lock new", "write new", "sync new", "rename new", "sync folder", "write log"
# lines that come after the dump
MORE = 300
TEXT = text_of(again(ENOUGH + MORE))
QUESTION = f"2 state {next(iter(files_after(TEXT[:SIZE])))}"


def numbers_in(calls: list[Call]) -> list[tuple[str, str, int]]:
    """The calls of the compacting, each with its number among those of its kind on its file, and
    the first write of the log after them."""
    counts: dict[tuple[str, str], int] = {}
    numbered = []
    for call in calls:
        key = call.kind, call.file
        counts[key] = counts.get(key, 0) + 1
        numbered.append((*key, counts[key]))
    begin = numbered.index(("create", "new", 1))
    within = list(takewhile(lambda call: call[:2] != ("write", "log"), numbered[begin:]))
    return [*within, numbered[begin + len(within)]]


class Midst:
    """The cases, with a program and its log."""

    def __init__(self, runner: Runner, folder: Path, checks: Checks) -> None:
        self.runner, self.checks = runner, checks
        self.asked = folder / "asked"
        self.asked.write_text(TEXT.replace(" => ok", ""))
        self.failures: set[str] = set()
        # how many lines come before the dump
        self.before = 0

    def run(self, *plans: Plan) -> Tried:
        self.runner.put(None)
        with self.asked.open("rb") as given:
            words = [str(self.runner.program), "--log", str(self.runner.log), "--sync"]
            return self.runner.given(words, given, plans)

    def lines_in(self, log: str) -> str | None:
        """The lines that a log has or begins, by its bytes or by its dump, if it is right."""
        if PLAIN.decode().startswith(log[: len(PLAIN)]):
            lines = log[len(PLAIN) :]
        else:
            begin = TEXT[: self.before * SIZE]
            dump = compacted(files_after(begin)).decode()
            if not log.startswith(dump):
                return None
            lines = begin + log[len(dump) :]
        return lines if TEXT.startswith(lines) else None

    def restarts(self, name: str, lines: str) -> None:
        """The next start knows what the last line says, and compacts the log if that is asked."""
        whole = lines[: len(lines) // SIZE * SIZE]
        stamp = whole[-SIZE:].split(" ")[3]
        files = files_after(whole)
        for words in (("--whole",), ("--compact",), ()):
            _, said, errors = ended(self.runner.program, QUESTION + "\n", "--log",
                                    str(self.runner.log), *words)
            answer = said.partition("\n")[2]
            wanted = f"{QUESTION} => idle lock - file {stamp}\n"
            self.checks.check(f"{name}: restart {words}", (answer, errors), (wanted, ""))
        log = self.runner.log.read_bytes()
        self.checks.check(f"{name}: the dump", log == compacted(files), True)
        self.checks.check(f"{name}: no new log is left", self.runner.new.exists(), False)

    def fails(self, plan: Plan) -> None:
        """A run in which this fails."""
        tried = self.run(plan)
        name = f"in the midst ({plan.told()})"
        self.checks.check(f"{name}: it did", tried.failed() is not None, True)
        self.failures.add(f"{plan.kind} {plan.file}")
        if plan.is_death():
            self.checks.check(f"{name}: status", tried.status, -9)
        begin = greeting(0)
        answered = tried.said[len(begin) :]
        is_said = tried.said.startswith(begin) and TEXT.startswith(answered)
        self.checks.check(f"{name}: answers", is_said, True)
        if tried.status == 0:
            self.checks.check(f"{name}: all is answered", answered == TEXT, True)
        lines = self.lines_in(tried.log or "")
        self.checks.check(f"{name}: the log is right", lines is not None, True)
        self.checks.check(f"{name}: the log has what was answered",
                          len(lines or "") >= len(answered), True)
        self.restarts(name, lines or "")

    def all(self) -> None:
        tried = self.run()
        self.before = ENOUGH + MORE - (tried.log or "").count(" => ok\n")
        self.checks.check("in the midst: it is compacted", self.before < ENOUGH + MORE, True)
        for kind, file, number in numbers_in(tried.calls):
            for error in (*ERRORS, *([HALF] if kind == "write" else [])):
                self.fails(Plan(kind, file, number, error))
        for call in CALLS:
            self.checks.check(f"in the midst: {call}: some failed", call in self.failures, True)
