"""The tool's paths as names of the database: one file, one name."""

import os
from dataclasses import replace

from ..errors import BadName
from ..names import name_of
from .graph import Graph, RecordError, Standing, Target


class Names:
    """The names of the files of a tree, by the tool's own paths."""

    def __init__(self, top: bytes) -> None:
        self.top = os.path.realpath(top)
        self.known: dict[bytes, bytes] = {}

    def name(self, path: bytes) -> bytes:
        """Return the name of a path, absolute or relative to the top. Raises RecordError."""
        if path not in self.known:
            try:
                self.known[path] = name_of(os.path.join(self.top, path), self.top)
            except BadName as error:
                raise RecordError(str(error)) from error
        return self.known[path]

    def graph(self, graph: Graph) -> Graph:
        """Return the graph with names instead of paths, and no target among its own inputs.

        If two paths are one file, what is known of both is put together.
        """
        named: Graph = {}
        for path, target in graph.items():
            name = self.name(path)
            inputs = dict.fromkeys(self.name(each) for each in target.inputs)
            inputs.pop(name, None)
            together = tuple(self.name(each) for each in target.together)
            aside = [self.name(each) for each in target.aside]
            new = replace(target, inputs=list(inputs), together=together, aside=aside)
            named[name] = _joined(named[name], new) if name in named else new
        return named


def _joined(one: Target, other: Target) -> Target:
    """Return what two rules say of the same target."""
    standing = other.standing if one.standing is Standing.BUILT else one.standing
    inputs = list(dict.fromkeys(one.inputs + other.inputs))
    together, aside = one.together + other.together, one.aside + other.aside
    checked = one.checked or other.checked
    return replace(
        one, inputs=inputs, standing=standing, checked=checked, together=together, aside=aside
    )
