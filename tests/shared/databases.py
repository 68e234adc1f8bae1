"""Databases that are made up by chance, each as the lines that make it and ask about it. Each has
names of its own, so one program can be given many."""
import random
from typing import Iterable

QUESTIONS = ("why", "deps", "users", "state")
STEMS = ["a", "a!", "a.b", "a/b", "a~", "A", "b", "-x", "0", "10", "9", "src/m.c", "src/m.h", "m.o",
         "lib/m.o", "lib"]
CONTENTS = ["-", "61", "6162"]
STAMPS = ["1", "2", "-1", "#"]


class Database:
    """The lines of one database. What its sessions hold is known as far as nothing is refused."""

    def __init__(self, choose: random.Random, number: int, count: int) -> None:
        self.choose = choose
        self.lines: list[str] = []
        stems = [*STEMS, *(f"n{at:03}" for at in range(count - len(STEMS)))]
        self.names = [f"{stem}@{number}" for stem in choose.sample(stems, count)]
        self.sessions = choose.sample(range(1, 65), choose.choice([1, 1, 2, 3]))
        self.holders: dict[str, int] = {}
        self.building: set[str] = set()
        for session in self.sessions:
            self.say(session, "end")

    def say(self, session: int, command: str) -> None:
        self.lines.append(f"{session} {command}")

    def any_session(self) -> int:
        return self.choose.choice(self.sessions)

    def some(self, names: list[str], most: int) -> str:
        """Up to this many of these names."""
        return " ".join(self.choose.sample(names, min(len(names), self.choose.randint(1, most))))

    def file(self, name: str) -> None:
        self.say(self.any_session(), f"file {name} {self.choose.choice(STAMPS)}")

    def gone(self, name: str) -> None:
        self.say(self.any_session(), f"gone {name}")

    def start(self, target: str) -> int:
        """Begins a build, by whoever has the lock."""
        session = self.holders.setdefault(target, self.any_session())
        self.say(session, f"lock {target}")
        self.say(session, f"start {target}")
        self.building.add(target)
        return session

    def end_build(self, session: int, target: str, words: str) -> None:
        self.say(session, words)
        self.building.discard(target)
        if self.choose.random() < 0.8:
            self.say(session, f"unlock {target}")
            self.holders.pop(target, None)

    def build(self, target: str, needed: str, content: str | None = None) -> None:
        """A whole build that needs these names, if any."""
        session = self.start(target)
        if needed:
            self.say(session, f"ifchange {target} {needed}")
        if content is not None:
            self.say(session, f"stamp {target} {content}")
        self.end_build(session, target, f"done {target} {self.choose.choice(['1', '1', '2', '-'])}")

    def depend(self, session: int, target: str) -> None:
        """What a build reports while it goes on: mostly names that come before its own."""
        choose = self.choose
        before = self.names[:self.names.index(target)]
        others = [name for name in self.names if name != target]
        kind = choose.random()
        if kind < 0.6:
            names = before if before and choose.random() < 0.7 else others
            self.say(session, f"ifchange {target} {self.some(names, 4)}")
        elif kind < 0.8:
            self.say(session, f"ifcreate {target} {self.some(others, 2)}")
        elif kind < 0.9:
            self.say(session, f"stamp {target} {choose.choice(CONTENTS)}")
        elif kind < 0.95:
            self.say(session, f"always {target}")

    def part_of_build(self, target: str) -> None:
        """A build that may be left as it is, fail or end."""
        is_begun = target in self.building and self.choose.random() < 0.7
        session = self.holders[target] if is_begun else self.start(target)
        for _ in range(self.choose.randint(0, 3)):
            self.depend(session, target)
        kind = self.choose.random()
        if kind < 0.7:
            self.end_build(session, target, f"done {target} {self.choose.choice(['1', '2', '-'])}")
        elif kind < 0.85:
            self.end_build(session, target, f"failed {target}")

    def end(self) -> None:
        session = self.any_session()
        self.say(session, "end")
        held = [name for name, holder in self.holders.items() if holder == session]
        for name in held:
            del self.holders[name]
            self.building.discard(name)

    def ask(self, name: str) -> None:
        self.say(self.any_session(), f"{self.choose.choice(QUESTIONS)} {name}")

    def stranger(self, name: str) -> None:
        """A command that is refused, as a rule, or leaves a lock held."""
        word = self.choose.choice(["lock", "unlock", "start", "always", "failed"])
        if name not in self.holders:
            self.say(self.any_session(), f"{word} {name}")
            self.say(self.sessions[0], f"unlock {name}")
        self.say(65 - self.sessions[0], f"{word} {name}")
        self.say(65 - self.sessions[0], "end")

    def act(self) -> None:
        """Anything that may happen."""
        name = self.choose.choice(self.names)
        kinds = [self.part_of_build, self.file, self.gone, self.ask]
        self.choose.choices(kinds, weights=[10, 5, 2, 3])[0](name)
        kind = self.choose.random()
        if kind < 0.04:
            self.end()
        elif kind < 0.08:
            self.stranger(name)

    def ask_all(self) -> None:
        """Each question about each name, and about one that nobody spoke of; and then about all names."""
        for name in [*self.names, f"new-{self.names[0]}"]:
            for question in QUESTIONS:
                self.say(self.any_session(), f"{question} {name}")
        self.say(self.any_session(), "names")


def mixed(choose: random.Random, number: int) -> Database:
    """A few names, and anything that may happen to them."""
    database = Database(choose, number, choose.randint(2, 8))
    for _ in range(choose.randint(2, 20)):
        database.act()
    return database


def layered(choose: random.Random, number: int) -> Database:
    """Sources, and targets that need names before their own; all is built, and then a little
    happens."""
    database = Database(choose, number, choose.randint(5, 14))
    sources = choose.randint(1, 4)
    for name in database.names[:sources]:
        database.file(name)
    for at in range(sources, len(database.names)):
        nearest = database.names[max(0, at - choose.randint(2, 5)):at]
        content = choose.choice([None, *CONTENTS])
        database.build(database.names[at], database.some(nearest, 3), content)
    for _ in range(choose.randint(0, 3)):
        database.act()
    return database


def ring(choose: random.Random, number: int) -> Database:
    """Targets that need each other in a ring, and one more that needs some of them. Their content
    is stamped, so all are up to date once each was built twice."""
    database = Database(choose, number, choose.randint(3, 8))
    *around, outside = database.names
    for turn in range(choose.choice([1, 2, 2, 2])):
        for target, needed in zip(around, [*around[1:], around[0]]):
            more = outside if choose.random() < 0.1 else ""
            database.build(target, f"{needed} {more}".strip(), "61")
    database.build(outside, database.some(around, 3))
    for _ in range(choose.randint(0, 2)):
        database.act()
    return database


def chain(choose: random.Random, number: int) -> Database:
    """A source and a thousand targets, each of which needs the one before; then the source
    changes, and maybe more happens."""
    database = Database(choose, number, 1001)
    source, *targets = database.names
    database.file(source)
    for target, needed in zip(targets, database.names):
        database.build(target, needed, choose.choice([None, "61"]))
    database.say(1, f"file {source} new")
    for _ in range(choose.randint(0, 2)):
        database.act()
    return database


def made(seed: int, number: int, is_chain: bool) -> Database:
    """The database of this number."""
    choose = random.Random(f"{seed} {number}")
    maker = chain if is_chain else choose.choices([mixed, layered, ring], weights=[5, 4, 1])[0]
    database = maker(choose, number)
    database.ask_all()
    return database


def text_of(lines: Iterable[str]) -> str:
    """Lines, as they are sent."""
    return "".join(f"{line}\n" for line in lines)
