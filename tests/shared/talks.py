"""Talks with redodb-live: it is started, lines are sent to it, and its answers are read."""
import contextlib
import os
import re
import select
import subprocess
from pathlib import Path
from typing import IO, Any, Iterable

from shared.processes import Ended

TOP = Path(__file__).resolve().parent.parent.parent
PROGRAM = TOP / "crates/redodb_live_cli/out/redodb_live_cli"
REDODB = TOP / "crates/redodb_cli/out/redodb_cli"
HEADER = "redodb-log 1\n"
# an answer that isn't there after this many seconds doesn't come
SECONDS = 60
# each line that is sent, with the lines of its answer
Pairs = list[tuple[str, list[str]]]


class Checks:
    """Counts what passed, failed and was skipped, and prints what failed or was skipped."""

    def __init__(self) -> None:
        self.passed = self.failed = self.skipped = 0

    def check(self, name: str, got: object, wanted: object) -> None:
        if got == wanted:
            self.passed += 1
        else:
            self.failed += 1
            print(f"failed: {name}\n  got:    {shown(got)}\n  wanted: {shown(wanted)}", flush=True)

    def skip(self, cause: str) -> None:
        self.skipped += 1
        print(f"skipped: {cause}", flush=True)

    def end(self) -> int:
        """Prints the counts; returns the status."""
        skipped = f", {self.skipped} skipped" if self.skipped else ""
        print(f"{self.passed} passed, {self.failed} failed{skipped}")
        return int(self.failed > 0)


def shown(value: object) -> str:
    """A value, with the middle of a long one left out."""
    text = repr(value)
    return text if len(text) <= 600 else f"{text[:300]} ... {text[-300:]}"


def greeting(restored: int) -> str:
    """The first line that is written."""
    return f"redodb-live 0.3.0 restored {restored}\n"


def ended(program: Path, text: str, *words: str, **options: Any) -> Ended:
    """What the program does with these words and this text on standard input. A byte is a letter."""
    run = subprocess.run([program, *words], input=text.encode("latin-1"), capture_output=True, check=False,
                         timeout=600, **options)
    return run.returncode, run.stdout.decode("latin-1"), run.stderr.decode("latin-1")


def fault(words: str) -> Ended:
    """Nothing but a fault line."""
    return 2, "", f"redodb-live: {words}\n"


def is_change(files: dict[str, str], line: str) -> bool:
    """Whether a line of a history changes something, if these names have these stamps before it. Then they have those
    after it."""
    said, _, reply = line.rstrip("\n").partition(" => ")
    words = said.split(" ")[1:]
    if reply.startswith(("refused ", "busy ")) or words[0] in ("ood", "targets", "sources"):
        return False
    before = dict(files) if words[0] in ("file", "gone") else {}
    if words[0] == "gone" or words[0] == "done" and words[2] == "-":
        files.pop(words[1], None)
    elif words[0] in ("file", "done"):
        files[words[1]] = words[2]
    return words[0] not in ("file", "gone") or before != files


def changing_from(before: Iterable[str], lines: Iterable[str]) -> list[str]:
    """The lines that change something after others."""
    files: dict[str, str] = {}
    for line in before:
        is_change(files, line)
    return [line for line in lines if is_change(files, line)]


def changing(lines: Iterable[str]) -> list[str]:
    """The lines of a history that change something, from the beginning on."""
    return changing_from([], lines)


def closing_of(lines: list[str]) -> str:
    """What closes all sessions after these lines, by the replies that their own commands got."""
    held: dict[tuple[int, str], bool] = {}
    for line in lines:
        said, _, reply = line.rstrip("\n").partition(" => ")
        session, word, *names = said.split(" ")
        key = int(session), names[0] if names else ""
        if word == "lock" and reply.startswith("granted "):
            held[key] = False
        elif word == "unlock" and reply == "ok":
            del held[key]
        elif word in ("start", "done", "failed") and reply == "ok":
            held[key] = word == "start"
    ends = []
    for (holder, name), is_building in sorted(held.items()):
        ends += [f"{holder} failed {name} => ok\n"] if is_building else []
        ends.append(f"{holder} unlock {name} => ok\n")
    return "".join(ends)


def history_of(log: str) -> str:
    """A log as a history, by the rule that each line but the first is one of a history."""
    lines = log.splitlines(keepends=True)[1:]
    return f"history {len(lines)}\n" + "".join(lines)


def verdict(redodb: Path, folder: Path, history: str) -> str:
    """What a replay says of a history."""
    told = folder / "told"
    told.write_text(history)
    return subprocess.run([redodb, "replay", told], capture_output=True, text=True, check=False).stdout.strip()


class Talk:
    """A program that is talked to over a pair of FIFOs."""

    def __init__(self, program: Path, folder: Path, *words: str, **variables: str) -> None:
        asks, answers = folder / "asks", folder / "answers"
        for fifo in (asks, answers):
            fifo.unlink(missing_ok=True)
            os.mkfifo(fifo)
        shell = ["sh", "-c", 'asks=$1 answers=$2; shift 2; exec "$0" "$@" <"$asks" >"$answers"']
        self.process = subprocess.Popen([*shell, program, asks, answers, *words], stderr=subprocess.PIPE,
                                        env={**os.environ, **variables})
        self.asks: IO[bytes] = asks.open("wb", buffering=0)
        self.answers: IO[bytes] = answers.open("rb", buffering=0)
        self.read = b""

    def send(self, text: str) -> None:
        """Sends a text, in one write if the FIFO takes it. A program that ended hears none."""
        with contextlib.suppress(BrokenPipeError):
            self.asks.write(text.encode("latin-1"))

    def hear(self) -> str:
        """The next line, or what came of it in time."""
        while b"\n" not in self.read:
            if not select.select([self.answers], [], [], SECONDS)[0]:
                return self.read.decode("latin-1")
            more = os.read(self.answers.fileno(), 1 << 16)
            if not more:
                break
            self.read += more
        line, end, self.read = self.read.partition(b"\n")
        return (line + end).decode("latin-1")

    def is_silent(self) -> bool:
        """Whether nothing more is answered for a while."""
        return not self.read and not select.select([self.answers], [], [], 0.05)[0]

    def end(self) -> tuple[int, str]:
        """Hangs up. Returns the status, and what was said on standard error."""
        self.asks.close()
        errors = self.process.communicate(timeout=SECONDS)[1].decode("latin-1")
        self.answers.close()
        return self.process.returncode, errors

    def kill(self) -> None:
        """Ends the program by force."""
        self.process.kill()
        self.process.wait()
        for pipe in (self.asks, self.answers, self.process.stderr):
            if pipe is not None:
                pipe.close()


def sessions_text(text: str) -> str:
    """A text, indented as in this file, without the indentation and the first line feed."""
    return re.sub(r"^ +", "", text.lstrip("\n"), flags=re.M)


def pairs_of(text: str) -> Pairs:
    """The lines that are sent follow `> `, and what has to be answered after them."""
    pairs: Pairs = []
    for line in sessions_text(text).splitlines(keepends=True):
        if line.startswith("> "):
            pairs.append((line[2:], []))
        else:
            pairs[-1][1].append(line)
    return pairs


def line_by_line(
    checks: Checks, program: Path, folder: Path, name: str, pairs: Pairs, *words: str
) -> None:
    """Each answer comes before the next line is sent, and nothing else comes."""
    talk = Talk(program, folder, *words)
    checks.check(f"{name}: greeting", talk.hear(), greeting(0))
    for asked, wanted in pairs:
        talk.send(asked)
        checks.check(f"{name}: {asked[:-1]}", [talk.hear() for _ in wanted], wanted)
    checks.check(f"{name}: silence", talk.is_silent(), True)
    checks.check(f"{name}: end", talk.end(), (0, ""))
