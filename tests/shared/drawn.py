"""Commands that are drawn by chance, and builds of targets that depend on each other: they make
rings, diamonds and chains. Most builds leave their target as it was, so targets become up to date
again."""
import random

from shared.recorded import State
from shared.reference import Reference

# names whose order by bytes isn't this one
STEMS = ["lib.o", "b", "lib", "a.o", "B", "a", "a.c", "lib.c", "y", "all", "T", "top"]
SESSIONS = 4
# how many of the names are built as targets; the others are sources
TARGETS = 9
# how many commands a build has
STEPS = 8
STAMPS = ["-", "1", "22", "2"]
CONTENTS = ["-", "616263", "616264"]


class Commands:
    """Commands on a few names that begin alike, drawn by chance."""

    def __init__(self, seed: int, prefix: str) -> None:
        self.random = random.Random(seed)
        self.names = [prefix + stem for stem in STEMS]

    def below(self, count: int) -> int:
        return int(self.random.random() * count)

    def one_of(self, words: list[str]) -> str:
        return words[self.below(len(words))]

    def some(self, most: int) -> str:
        """Up to this many names, some of which may be the same."""
        return " ".join(self.one_of(self.names) for _ in range(1 + self.below(most)))

    def owner(self, target: str) -> int:
        """The session that works on a target."""
        return 1 + self.names.index(target) % SESSIONS

    def session(self, target: str) -> int:
        """A session: mostly the one that works on this target."""
        return self.owner(target) if self.below(12) else 1 + self.below(SESSIONS)

    def file(self) -> str:
        """A command that gives some name a file, or none."""
        name, stamp = self.one_of(self.names), self.one_of(STAMPS)
        return f"file {name} {stamp}" if stamp != "-" and self.below(4) else f"gone {name}"

    def rows(self, target: str) -> str:
        """A command on a target's rows."""
        kind = self.below(8)
        if kind < 4:
            return f"ifchange {target} {self.some(3)}"
        return f"ifcreate {target} {self.some(3)}" if kind < 7 else f"always {target}"

    def command(self, target: str) -> str:
        """A command on a target, on any file, or for a list."""
        match self.below(32):
            case 0 | 1 | 2 | 3:
                return self.file()
            case 4 | 5:
                return f"lock {target}"
            case 6:
                return f"unlock {target}"
            case 7 | 8 | 9 | 10 | 11:
                return f"start {target}"
            case 20 | 21 | 22:
                return f"stamp {target} {self.one_of(CONTENTS)}"
            case 23 | 24 | 25 | 26:
                return f"done {target} {self.one_of(STAMPS)}"
            case 27:
                return f"failed {target}"
            case 28 | 29:
                return "ood"
            case 30:
                return "targets"
            case 31:
                return "sources"
        return self.rows(target)


class Builds(Commands):
    """Builds of targets, with changes of the sources between their commands."""

    def __init__(self, seed: int, prefix: str) -> None:
        super().__init__(seed, prefix)
        self.targets, self.sources = self.names[:TARGETS], self.names[TARGETS:]
        # the source that mostly has no file
        self.missing = self.sources[-1]

    def next_target(self, reference: Reference) -> str:
        """The target to build next: mostly one that was never started, or has a reason of its
        own."""
        for _ in range(3):
            target = self.one_of(self.targets)
            if reference.known(target).state is State.IDLE or reference.reasons(target):
                return target
        return self.one_of(self.targets)

    def source_file(self) -> str:
        """A source gets a file or none: mostly what it had before."""
        name = self.one_of(self.sources)
        kind = self.below(16)
        if kind == 0 or kind > 2 and name == self.missing:
            return f"gone {name}"
        return f"file {name} {1 if kind > 2 else 2}"

    def needed(self, target: str) -> str:
        """A name for a target to depend on: the next target, which makes chains and a ring; one of
        two popular targets; a source; or any name."""
        kind = self.below(16)
        if kind < 8:
            return self.targets[(self.names.index(target) + 1) % TARGETS]
        if kind < 12:
            return self.one_of(self.targets[:2])
        return self.one_of(self.sources if kind < 14 else self.names)

    def ifchange(self, target: str) -> str:
        needed = (self.needed(target) for _ in range(1 + self.below(2)))
        return " ".join(["ifchange", target, *needed])

    def last_words(self, target: str) -> str:
        """The command just before the end of a build."""
        kind = self.below(32)
        if kind < 2:
            return f"{'failed' if kind else 'always'} {target}"
        return f"ifcreate {target} {self.missing}" if kind < 9 else self.source_file()

    def step(self, target: str, step: int) -> str:
        """The command at this step of a build; rarely, any command."""
        if not self.below(64):
            return self.command(target)
        match step:
            case 0:
                return f"lock {target}"
            case 1:
                return f"start {target}"
            case 2 | 3:
                return self.ifchange(target)
            case 4:
                return f"stamp {target} {CONTENTS[1 if self.below(32) else 2]}"
            case 5:
                return self.last_words(target)
            case 6:
                return f"done {target} 1"
        return self.source_file()
