"""The commands that report to the database what a build tool knows.

Tools compare times: a target is out of date if an input was written after it. The database
compares what a build saw with what there is now. So the commands come in the order of the files'
times: a target that is newer than an input is built after the line of the input, and an
older one before it, when the input was another file.
"""

import os
from collections.abc import Iterator
from dataclasses import dataclass
from enum import IntEnum

from ..names import path_of
from ..stamps import stamp_of
from .graph import Graph, Standing, Target

MOST_NAMES = 64
"""The names that one command takes after its target."""
MOST_BYTES = 8_192
"""The bytes of a command."""
BEFORE = b"before"
"""The stamp of a file before it was written for the last time: nobody knows the true one."""


class Kind(IntEnum):
    """What happens to a name."""

    WRITTEN = 0
    BUILT = 1
    CHECKED = 2
    REMOVED = 3


@dataclass(frozen=True, order=True)
class Event:
    """What happens to a name at a time. At one time, inputs come before what is built of them."""

    time: float
    rank: int
    kind: Kind
    name: bytes


class Story:
    """The events of a graph whose paths are names relative to the folder `top`."""

    def __init__(self, graph: Graph, top: bytes) -> None:
        self.graph = graph
        self.top = os.path.realpath(top)
        self.order = inputs_first(graph)
        self.aside = {name for target in graph.values() for name in target.aside}
        names = [name for target in graph.values() for name in target.inputs + target.aside]
        self.sources = [name for name in dict.fromkeys(names) if name not in graph]
        self.written = {name: self._written(name) for name in [*self.sources, *graph]}
        self.times: dict[bytes, float] = {}
        for name in [*self.sources, *self.order]:
            self.times[name] = self._time(name)
        for target in graph.values():
            if any(self._is_old(each) for each in target.together):
                target.standing = Standing.UNBUILT

    def commands(self) -> Iterator[bytes]:
        """Return the commands, one after another, of session 1 and without its number."""
        for name in self._rewritten():
            yield b"file %b %b" % (name, BEFORE)
        for event in sorted(self._events()):
            match event.kind:
                case Kind.WRITTEN:
                    yield b"file %b %b" % (event.name, self._stamp(event.name))
                case Kind.REMOVED:
                    yield b"gone %b" % event.name
                case _:
                    yield from self._build(event.name)

    def _written(self, name: bytes) -> float | None:
        """Return when the file was written, in nanoseconds; None if there is none."""
        try:
            return os.stat(path_of(name, self.top)).st_mtime_ns
        except OSError:
            return None

    def _time(self, name: bytes) -> float:
        """Return when the name last changed.

        What is no file changed when its newest input did, and a source that is lost at the end.
        """
        written = self.written[name]
        if name in self.aside:
            return 0
        if written is not None:
            return written
        if name not in self.graph:
            return float("inf")
        return max((self.times.get(each, 0) for each in self.graph[name].inputs), default=0)

    def _seen(self, name: bytes) -> float:
        """Return when the target's last build, or the last check of it, was."""
        checked = self.graph[name].checked
        return self.times[name] if checked is None else max(checked, self.times[name])

    def _is_old(self, name: bytes) -> bool:
        """Whether an input is newer than the target."""
        return any(self.times[each] > self._seen(name) for each in self.graph[name].inputs)

    def _rewritten(self) -> list[bytes]:
        """Return the names that a target was built from before they became what they are now."""
        found = {
            each
            for name, target in self.graph.items()
            for each in target.inputs
            if self.times[each] > self._seen(name)
        }
        return sorted(
            name for name in found if name not in self.graph or self.written[name] is not None
        )

    def _events(self) -> Iterator[Event]:
        for name in self.sources:
            kind = Kind.REMOVED if self.written[name] is None else Kind.WRITTEN
            yield Event(self.times[name], -1, kind, name)
        for rank, name in enumerate(self.order):
            yield Event(self.times[name], rank, Kind.BUILT, name)
            if self._seen(name) > self.times[name]:
                yield Event(self._seen(name), rank, Kind.CHECKED, name)

    def _stamp(self, name: bytes) -> bytes:
        """Return the stamp of a file, `-` if there is none."""
        return (stamp_of(path_of(name, self.top)) or "-").encode()

    def _build(self, name: bytes) -> Iterator[bytes]:
        """Return the commands of a build: what it read, and how it ended."""
        target = self.graph[name]
        yield b"lock %b" % name
        yield b"start %b" % name
        yield from in_lines(b"ifchange %b" % name, target.inputs + target.aside)
        yield from self._end(name, target)
        yield b"unlock %b" % name

    def _end(self, name: bytes, target: Target) -> Iterator[bytes]:
        if target.checked is not None:
            yield b"stamp %b -" % name
        elif target.digest is not None:
            yield b"stamp %b %b" % (name, target.digest)
        if target.standing is Standing.ALWAYS:
            yield b"always %b" % name
        if target.standing is not Standing.UNBUILT:
            yield b"done %b %b" % (name, self._stamp(name))
            return
        yield b"failed %b" % name
        if self.written[name] is not None:
            yield b"file %b %b" % (name, self._stamp(name))


def in_lines(start: bytes, names: list[bytes]) -> list[bytes]:
    """Return commands that begin with `start` and together have these names."""
    lines: list[list[bytes]] = []
    size = 0
    for name in names:
        size += 1 + len(name)
        if not lines or len(lines[-1]) == MOST_NAMES or len(start) + size > MOST_BYTES:
            lines.append([])
            size = 1 + len(name)
        lines[-1].append(name)
    return [b" ".join([start, *line]) for line in lines]


def inputs_first(graph: Graph) -> list[bytes]:
    """Return the targets, each after those that are its inputs; a ring is cut somewhere."""
    order: list[bytes] = []
    met: set[bytes] = set()
    for root in graph:
        stack = [] if root in met else [(root, iter(graph[root].inputs))]
        met.add(root)
        while stack:
            name, left = stack[-1]
            below = next((each for each in left if each in graph and each not in met), None)
            if below is None:
                order.append(name)
                stack.pop()
            else:
                met.add(below)
                stack.append((below, iter(graph[below].inputs)))
    return order
