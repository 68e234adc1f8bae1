"""The session files of bench/run, as bench/README.md describes them: three kinds of work."""
import itertools
from pathlib import Path
from typing import Callable, Iterator

COMMANDS = 4096
SOURCES = TARGETS = 200
# a session's step from one of the common targets to its next: they have no factor of 200, so that it comes to all
STEPS = [step for step in range(1, TARGETS) if step % 2 and step % 5]

Lines = Iterator[str]


def files() -> Lines:
    """All sources are reported."""
    return (f"file src/{number}.c 1" for number in range(SOURCES))


def sources_from(first: int) -> str:
    """Eight scattered sources."""
    return " ".join(f"src/{(first + 25 * at) % SOURCES}.c" for at in range(8))


def build(target: str, first: int, stamp: int, guard: str = "") -> Lines:
    """One build of a target that needs eight sources; after the lock, each command has the guard."""
    yield f"lock {target}"
    yield f"{guard}start {target}"
    yield f"{guard}ifchange {target} {sources_from(first)}"
    yield f"{guard}done {target} {stamp}"
    yield f"{guard}unlock {target}"


def builds(session: int) -> Lines:
    """The sources, and then the session's own targets, over and over."""
    yield from files()
    for number in itertools.count():
        target = f"out/{session}/{number % TARGETS}.o"
        yield from build(target, 7 * number + 3 * session, number)


def contended(session: int) -> Lines:
    """The sources, and then the targets that all sessions build, each in an order of its own: a build is left out if
    another session has the lock. What is out of date is asked between builds, since a question lets guards through."""
    yield from files()
    step, first = STEPS[session % len(STEPS)], 37 * session
    for turn in itertools.count(1):
        number = (first + step * turn) % TARGETS
        yield from build(f"out/{number}.o", 7 * number, turn, "? ")
        if turn % 20 == 0:
            yield "ood"


def asked(work: Callable[[int], Lines], each: int) -> Callable[[int], Lines]:
    """The work, in which every command whose number `each` divides asks what is out of date."""
    def lines(session: int) -> Lines:
        commands = work(session)
        for number in itertools.count(1):
            yield "ood" if number % each == 0 else next(commands)
    return lines


WORKS = {
    "builds": asked(builds, 100),
    "contended": contended,
    "asking": asked(builds, 5),
}


def written(folder: Path, work: str, session: int) -> Path:
    """The file of a session: the work's first commands. If they end in a build, the closing commands end it."""
    path = folder / f"{work}-{session}.redo"
    lines = itertools.islice(WORKS[work](session), COMMANDS)
    path.write_text("".join(f"{line}\n" for line in lines))
    return path
