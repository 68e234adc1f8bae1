"""The database of docs/RULES.md in its plainest form: lines of a history are done, and answers to
questions are judged. It is written from that page alone."""
import hashlib
from collections import defaultdict
from dataclasses import dataclass, field
from enum import Enum
from typing import Iterable


class State(Enum):
    IDLE = "idle"
    BUILDING = "building"
    BUILT = "built"
    FAILED = "failed"


class Kind(Enum):
    ABSENT = "absent"
    PENDING = "pending"
    FILE = "file"
    DIGEST = "digest"
    BUILDS = "builds"


# what a name looks like to a build: marks are equal if kind and value both are
Mark = tuple[Kind, str | int | None]


@dataclass(slots=True)
class Cell:
    """What is kept of a name, with its rows and its lock."""
    file: str | None = None
    state: State = State.IDLE
    # who builds it, while it is building
    builder: int = 0
    builds: int = 0
    # the stamp that the last `done` gave
    done: str | None = None
    digest: str | None = None
    holder: int | None = None
    changes: dict[str, Mark] = field(default_factory=dict)
    created: set[str] = field(default_factory=set)
    always: bool = False

    def mark(self) -> Mark:
        if self.state is State.IDLE:
            return (Kind.ABSENT, None) if self.file is None else (Kind.FILE, self.file)
        if self.state is not State.BUILT:
            return Kind.PENDING, None
        if self.digest is not None:
            return Kind.DIGEST, self.digest
        return Kind.BUILDS, self.builds

    def start(self, session: int) -> None:
        self.state, self.builder = State.BUILDING, session
        self.changes, self.created, self.always = {}, set(), False
        self.digest = None

    def end(self, stamp: str | None) -> None:
        self.state = State.BUILT
        self.builds += 1
        self.file = self.done = stamp


UNKNOWN = Cell()


def stamp_of(word: str) -> str | None:
    return None if word == "-" else word


def digest_of(content: str) -> str:
    return hashlib.sha1(b"" if content == "-" else bytes.fromhex(content)).hexdigest()


class Database:
    """What is known after the lines of a history that were done."""

    def __init__(self, lines: Iterable[str] = ()) -> None:
        self.cells: dict[str, Cell] = {}
        # the names in commands, in the order in which they came
        self.named: dict[str, None] = {}
        # the steps, if they were counted since the last change
        self.counted: dict[str, int] | None = None
        for line in lines:
            self.do(line)

    def known(self, name: str) -> Cell:
        return self.cells.get(name, UNKNOWN)

    def do(self, line: str) -> None:
        """Does a line of a history, unless its reply says that it changes nothing."""
        said, _, reply = line.partition(" => ")
        session, word, *names = said.split(" ")
        self.named.update(dict.fromkeys(names if word in ("ifchange", "ifcreate") else names[:1]))
        is_list = word in ("ood", "targets", "sources")
        if is_list or reply.startswith(("refused ", "busy ")):
            return
        self.counted = None
        self.change(self.cells.setdefault(names[0], Cell()), int(session), word, names[1:])

    def change(self, cell: Cell, session: int, word: str, rest: list[str]) -> None:
        """Does an accepted command on the name of this cell."""
        match word:
            case "file":
                cell.file = rest[0]
            case "gone":
                cell.file = None
            case "lock":
                cell.holder = session
            case "unlock":
                cell.holder = None
            case "start":
                cell.start(session)
            case "ifchange":
                cell.changes.update((name, self.known(name).mark()) for name in rest)
            case "ifcreate":
                cell.created.update(rest)
            case "always":
                cell.always = True
            case "stamp":
                cell.digest = digest_of(rest[0])
            case "done":
                cell.end(stamp_of(rest[0]))
            case "failed":
                cell.state = State.FAILED

    def reasons(self, target: str) -> set[tuple[str, str]]:
        """The reasons that a name has by itself, each with the name that an answer gives for it."""
        cell = self.known(target)
        if cell.state is State.IDLE:
            return set()
        own = {
            "building": cell.state is State.BUILDING,
            "failed": cell.state is State.FAILED,
            "edited": cell.file != cell.done,
            "always": cell.always,
        }
        found = {(reason, target) for reason, holds in own.items() if holds}
        found |= {("appeared", name) for name in cell.created if self.known(name).file is not None}
        marks = cell.changes.items()
        changed = {name for name, mark in marks if self.known(name).mark() != mark}
        return found | {("changed", name) for name in changed}

    def steps(self) -> dict[str, int]:
        """How many steps it is at least from each target that is out of date to one with a reason
        of its own: first come those that have one, then again and again what depends on the latest
        and didn't come before."""
        if self.counted is not None:
            return self.counted
        needed_by: defaultdict[str, list[str]] = defaultdict(list)
        for target, cell in self.cells.items():
            for name in cell.changes:
                needed_by[name].append(target)
        latest = [name for name in self.cells if self.reasons(name)]
        steps = dict.fromkeys(latest, 0)
        count = 0
        while latest:
            count += 1
            depends = {target for name in latest for target in needed_by[name]}
            latest = [target for target in depends if target not in steps]
            steps.update(dict.fromkeys(latest, count))
        self.counted = steps
        return steps

    def is_why(self, target: str, answer: str) -> bool:
        """Whether this answers why a target is out of date: by a shortest chain, and a reason of
        its last target."""
        steps = self.steps().get(target)
        if steps is None:
            return answer == "clean"
        reason, _, told = answer.partition(" ")
        name, *chain = told.split(" ")
        if len(chain) != steps + 1 or chain[0] != target:
            return False
        pairs = zip(chain, chain[1:])
        are_steps = all(other in self.known(one).changes for one, other in pairs)
        return are_steps and (reason, name) in self.reasons(chain[-1])

    def deps(self, target: str) -> str:
        cell = self.known(target)
        change = " ".join(["change", str(len(cell.changes)), *sorted(cell.changes)])
        created = " ".join(["created", str(len(cell.created)), *sorted(cell.created)])
        return f"{change} {created} always {int(cell.always)}"

    def users(self, name: str) -> str:
        cells = self.cells.items()
        change = sorted(target for target, cell in cells if name in cell.changes)
        created = sorted(target for target, cell in cells if name in cell.created)
        return " ".join(["change", str(len(change)), *change, "created", str(len(created)), *created])

    def state(self, name: str) -> str:
        cell = self.known(name)
        builder = f" {cell.builder}" if cell.state is State.BUILDING else ""
        holder = "-" if cell.holder is None else cell.holder
        file = "-" if cell.file is None else cell.file
        return f"{cell.state.value}{builder} lock {holder} file {file}"

    def names(self) -> str:
        return " ".join([str(len(self.named)), *(self.told_of(name) for name in self.named)])

    def told_of(self, name: str) -> str:
        """The six words about a name in the answer about all."""
        cell = self.known(name)
        state, builds = cell.state.value, cell.builds
        return f"{name} {cell.file or '-'} {state} {builds} {cell.done or '-'} {cell.digest or '-'}"

    def is_right(self, question: str, name: str, answer: str) -> bool:
        """Whether this is an answer to one of the questions about a name."""
        if question == "why":
            return self.is_why(name, answer)
        told = {"deps": self.deps, "users": self.users, "state": self.state}
        return answer == told[question](name)
