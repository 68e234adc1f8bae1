"""What ninja knows: build.ninja's edges, and what its logs keep of each build."""

import os
import posixpath

from .depfile import read_rules
from .graph import Graph, Standing, Target
from .manifest import Edge, read_manifest
from .ninja_logs import Read, read_build_log, read_deps_log


class NinjaTree:
    """A folder with a build.ninja, and ninja's logs of it.

    Raises RecordError if there is no build.ninja that can be read, or a log of another version.
    """

    def __init__(self, top: bytes) -> None:
        self.top = top
        self.manifest = read_manifest(top)
        logs = os.path.join(top, self.manifest.builddir)
        self.edges = self.manifest.edges
        self.built = read_build_log(os.path.join(logs, b".ninja_log"))
        self.read = read_deps_log(os.path.join(logs, b".ninja_deps"))

    def graph(self) -> Graph:
        """Return the outputs of all edges with what makes each out of date."""
        return {
            output: self._target(edge, output) for edge in self.edges for output in edge.outputs
        }

    def _target(self, edge: Edge, output: bytes) -> Target:
        together = tuple(edge.outputs) if len(edge.outputs) > 1 else ()
        target = Target(list(edge.inputs), together=together)
        if edge.is_phony:
            if not edge.inputs + edge.order_only and self._time(output) is None:
                target.standing = Standing.ALWAYS
            return target
        found = self._found(edge)
        target.inputs += found or ()
        if found is None or not all(self._was_built(edge, each) for each in edge.outputs):
            target.standing = Standing.UNBUILT
        if edge.value(b"restat"):
            target.checked = self.built.get(output)
        return target

    def _was_built(self, edge: Edge, output: bytes) -> bool:
        """Whether there is the file, and ninja knows of its build."""
        if self._time(output) is None:
            return False
        return output in self.built or bool(edge.value(b"generator"))

    def _found(self, edge: Edge) -> list[bytes] | None:
        """Return the inputs that the edge's build found; None if the record of them is lost."""
        output = edge.outputs[0]
        if edge.value(b"deps"):
            known = self.read.get(output, Read(-1, []))
            time = self._time(output)
            return known.inputs if time is None or known.time >= time else None
        if not edge.value(b"depfile"):
            return []
        try:
            with open(os.path.join(self.top, edge.value(b"depfile")), "rb") as file:
                rules = read_rules(file.read())
        except OSError:
            return None
        return [posixpath.normpath(name) for inputs in rules.values() for name in inputs]

    def _time(self, name: bytes) -> int | None:
        """Return when the file was written, in nanoseconds; None if there is none."""
        try:
            return os.stat(os.path.join(self.top, name)).st_mtime_ns
        except OSError:
            return None
