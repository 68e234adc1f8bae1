"""What a run of one session file writes, and the verdict on a history, by docs/RULES.md."""
from typing import Iterable

from shared.reading import Asked, Told, read_history, read_session
from shared.reference import Reference


class Run:
    """A run of one session: what it wrote so far."""

    def __init__(self) -> None:
        self.reference = Reference()
        self.history: list[str] = []
        self.own: list[str] = []
        # whether the latest reply stops guarded lines
        self.is_stopped = False

    def do(self, command: str, guard: str = "") -> None:
        reply = self.reference.answer(1, command)
        self.is_stopped = reply.startswith(("busy ", "refused "))
        self.history.append(f"1 {command} => {reply}\n")
        self.own.append(f"{guard}{command} => {reply}\n")

    def do_line(self, line: Asked) -> None:
        """Does a line of the file, or skips it."""
        if line.is_guarded and self.is_stopped:
            self.own.append(f"? {line.command} => skipped\n")
        else:
            self.do(line.command, "? " if line.is_guarded else "")

    def do_all(self, lines: Iterable[Asked]) -> None:
        """Does the lines of the file, and the closing commands."""
        for line in lines:
            self.do_line(line)
        while (command := self.reference.closing(1)) is not None:
            self.do(command)

    def text(self) -> str:
        histories = [f"history {len(self.history)}\n", *self.history]
        return "".join([*histories, f"session 1 {len(self.own)}\n", *self.own])


def run_text(file: bytes) -> str:
    """What a run of a session file writes."""
    run = Run()
    run.do_all(read_session(file))
    return run.text()


def verdict_on(lines: Iterable[Told]) -> str:
    """The verdict on the lines of a history."""
    reference = Reference()
    number = 0
    for number, line in enumerate(lines, 1):
        reply = reference.answer(line.session, line.command)
        if reply != line.reply:
            return f"differs {number} {reply}\n"
    return f"same {number}\n"


def verdict_text(history: bytes) -> str:
    """What a replay of a history writes."""
    return verdict_on(read_history(history))
