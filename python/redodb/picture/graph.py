"""What a target is built from, as the database reports it."""

import os
from collections import deque
from dataclasses import dataclass, field

from ..conversation import Conversation
from ..replies import Deps, State, Why, read_deps, read_state, read_why
from .told import Line, PictureError

SESSION = b"64"
"""The session that asks; questions change nothing."""


@dataclass
class Node:
    """A name of the graph."""

    state: State
    has_file: bool
    why: Why | None = None
    rows: Deps | None = None
    """What it was built from; None if it is no target."""

    @property
    def is_target(self) -> bool:
        return self.state is not State.IDLE


@dataclass
class Graph:
    """A target, and what it is built from."""

    root: bytes
    nodes: dict[bytes, Node] = field(default_factory=dict)
    """The names that the graph has; others in rows are targets that it leaves out."""

    def chain(self) -> list[bytes]:
        """Return the names from the root to the reason why it is out of date, if it is."""
        why = self.nodes[self.root].why
        if why is None:
            return []
        return [*why.chain, *([why.name] if why.name != why.chain[-1] else [])]


class Questions:
    """A database after a history."""

    def __init__(self, database: Conversation, path: bytes, lines: list[Line]) -> None:
        self._database = database
        told = (f"{line.session} {line.text}" for line in lines)
        commands = (f"{line.session} {line.text.partition(' => ')[0]}".encode() for line in lines)
        for number, (line, answer) in enumerate(zip(told, database.ask_all(commands)), 1):
            if answer != line.encode():
                raise PictureError(f"{os.fsdecode(path)}: line {number} differs: {answer.decode()}")

    def _ask(self, question: bytes) -> bytes:
        asked = b"%b %b" % (SESSION, question)
        return self._database.ask(asked).removeprefix(asked + b" => ")

    def node(self, name: bytes) -> Node:
        """Return the state of a name, without its rows."""
        state = read_state(self._ask(b"state " + name), b"state")
        return Node(
            state.state, state.stamp is not None, read_why(self._ask(b"why " + name), b"why")
        )

    def rows(self, name: bytes) -> Deps:
        """Return what the target was built from."""
        return read_deps(self._ask(b"deps " + name), b"deps")


def graph_of(questions: Questions, root: bytes, most: int) -> Graph:
    """Return the graph below this target, with at most this many targets.

    The chain of why is always whole, and then come the nearest ones. Raises PictureError if the
    name is no target.
    """
    graph = Graph(root, {root: questions.node(root)})
    if not graph.nodes[root].is_target:
        raise PictureError(f"{root.decode()}: no target")
    for name in graph.chain()[1:]:
        graph.nodes[name] = questions.node(name)
    waiting = deque(name for name, node in graph.nodes.items() if node.is_target)
    room = most - len(waiting)
    while waiting:
        rows = questions.rows(waiting[0])
        graph.nodes[waiting.popleft()].rows = rows
        for name in (*rows.changed, *rows.created):
            if name not in graph.nodes:
                node = questions.node(name)
                if not node.is_target:
                    graph.nodes[name] = node
                elif room > 0:
                    room -= 1
                    graph.nodes[name] = node
                    waiting.append(name)
    return graph
