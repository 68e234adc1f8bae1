"""The database of docs/RULES.md, which answers commands: what is recorded (recorded.py), and the
replies. It is written from that page alone."""
from collections import Counter
from typing import Iterable

from shared import recorded
from shared.recorded import State


class Reference(recorded.Database):
    """What is known after some commands, and the reply to the next one."""

    def __init__(self) -> None:
        super().__init__()
        # how often the lock of each name was granted
        self.grants: Counter[str] = Counter()

    def answer(self, session: int, command: str) -> str:
        """Does a session's command; returns the reply to it."""
        reply = self.reply(session, command)
        self.do(f"{session} {command} => {reply}")
        if reply.startswith("granted "):
            self.grants[command.split(" ")[1]] += 1
        return reply

    def reply(self, session: int, command: str) -> str:
        word, *rest = command.split(" ")
        refusal = self.refusal(session, word, rest)
        if refusal is not None:
            return f"refused {refusal}"
        match word:
            case "lock":
                return self.lock(rest[0])
            case "ifchange":
                stale = self.stale(rest[1:])
                return " ".join(["stale", *stale]) if stale else "ok"
            case "stamp":
                return f"stamped {recorded.digest_of(rest[1])}"
            case "ood" | "targets" | "sources":
                return " ".join([word, *self.listed(word)])
        return "ok"

    def refusal(self, session: int, word: str, rest: list[str]) -> str | None:
        """Why a command is refused, if it is: the first cause that applies."""
        if word in ("unlock", "start"):
            return self.refusal_to_holder(session, rest[0])
        if word not in ("ifchange", "ifcreate", "always", "stamp", "done", "failed"):
            return None
        target, *names = rest
        if not self.builds(session, target):
            return "not-building"
        if word not in ("ifchange", "ifcreate"):
            return None
        if target in names:
            return "self"
        found = [name for name in names if self.known(name).file is not None]
        return f"exists {found[0]}" if word == "ifcreate" and found else None

    def refusal_to_holder(self, session: int, target: str) -> str | None:
        """Why `unlock` and `start` are refused, if they are."""
        cell = self.known(target)
        if cell.holder != session:
            return "not-locked"
        return "building" if cell.state is State.BUILDING else None

    def builds(self, session: int, target: str) -> bool:
        cell = self.known(target)
        return cell.state is State.BUILDING and cell.builder == session

    def lock(self, target: str) -> str:
        grants = self.grants[target]
        is_free = self.known(target).holder is None
        return f"granted {grants + 1}" if is_free else f"busy {grants}"

    def stale(self, names: Iterable[str]) -> list[str]:
        """Those of these names that are stale."""
        return sorted({name for name in names if name in self.steps() or self.is_missing(name)})

    def is_missing(self, name: str) -> bool:
        """Whether a name is idle, without a file."""
        cell = self.known(name)
        return cell.state is State.IDLE and cell.file is None

    def listed(self, word: str) -> list[str]:
        """The names in the reply to `ood`, `targets` or `sources`."""
        cells = self.cells.items()
        filed = {name for name, cell in cells if cell.file is not None}
        idle = {name for name, cell in cells if cell.state is State.IDLE}
        match word:
            case "ood":
                return sorted(filed & self.steps().keys())
            case "targets":
                return sorted(filed - idle)
        return sorted(filed & idle & self.needed())

    def needed(self) -> set[str]:
        """The names on which some target has a change row or a created row."""
        rows = ((*cell.changes, *cell.created) for cell in self.cells.values())
        return {name for names in rows for name in names}

    def held(self, session: int) -> list[str]:
        """The names whose locks a session holds."""
        return sorted(name for name, cell in self.cells.items() if cell.holder == session)

    def closing(self, session: int) -> str | None:
        """The next closing command of a session, if it holds anything."""
        held = self.held(session)
        if not held:
            return None
        is_building = self.known(held[0]).state is State.BUILDING
        return f"{'failed' if is_building else 'unlock'} {held[0]}"

    def searched(self) -> set[str]:
        """The targets that are out of date by the definition: a search from each target along its
        change rows finds one that has a reason of its own."""
        with_reason = {name for name in self.cells if self.reasons(name)}
        return {name for name in self.cells if self.is_joined(name, with_reason)}

    def is_joined(self, target: str, ends: set[str]) -> bool:
        """Whether a chain of change rows leads from a target to one of these."""
        found = {target}
        latest = [target]
        while latest and not found & ends:
            new = self.known(latest.pop()).changes.keys() - found
            found |= new
            latest += new
        return bool(found & ends)
