"""The rules of a build.ninja: what each `.do` file asks for and runs."""

import os
import posixpath
import re

from ..names import path_of
from .graph import RecordError
from .manifest import Edge, Manifest
from .names import Names
from .rule_files import is_free
from .rules import Rule, write_rules
from .shell import call, quoted_path

THERE = b".there"
"""What ends the name of a target that builds another and never changes."""
MADE = b".made"
"""What ends the name of a target that stands for links: redo takes a link for edited that leads to
a file which was built again."""
FRESH = b"build.ninja.fresh"
"""The target that fails once build.ninja is older than what it was generated from."""
_LINKS = re.compile(rb"\bcmake_symlink_|\bcreate_symlink\b|\bln -[A-Za-z]*s")
_CHECK = b"""\
for each in %b; do
    [ "$each" -nt build.ninja ] || continue
    echo "build.ninja is older than $each: have it made again, then its rules by redodb record" >&2
    exit 1
done"""


class NinjaRules:
    """The rules of a manifest, for the tree in the folder `top`."""

    def __init__(self, top: bytes, manifest: Manifest) -> None:
        self.top = os.path.realpath(top)
        self.manifest = manifest
        self.names = Names(top)
        self.edges: dict[bytes, Edge] = {}
        self.leaders: dict[bytes, bytes] = {}
        """By name, the path of the first output of the same edge."""
        self.followers: dict[bytes, bytes] | None = None
        self.rules: dict[bytes, Rule] = {}
        self.generators: list[Edge] = []
        for edge in manifest.edges:
            self._add_edge(edge)

    def all(self) -> list[Rule]:
        """Return the rules. Raises RecordError if there is an edge that no rule can build."""
        for edge in self._ours():
            if not edge.is_phony:
                self._add(self._built(edge))
            for output in self._outputs(edge) if edge.is_phony else ():
                self._add(self._named(edge, output))
        if self.generators:
            self._add(self._fresh())
        if b"all" not in self.edges:
            self._add(Rule(b"all", self._asked(self._defaults()), has_content=False))
        if self.generators and b"all" in self.rules:
            self.rules[b"all"].asks.insert(0, FRESH)
        return list(self.rules.values())

    def has_own_all(self) -> bool:
        """Say whether the manifest has an output `all`."""
        return b"all" in self.edges

    def along(self) -> dict[bytes, bytes]:
        """Return the targets that make outputs which have no rule, by the paths of these."""
        if self.followers is None:
            outputs = [output for edge in self._ours() for output in self._outputs(edge)]
            leaders = {path: self._leader(path) for path in map(self._path, outputs)}
            self.followers = {path: leader for path, leader in leaders.items() if path != leader}
        return self.followers

    # ---- edges

    def _add_edge(self, edge: Edge) -> None:
        if edge.value(b"generator"):
            self.generators.append(edge)
            return
        target = self._target(edge)
        for output in self._outputs(edge):
            name = self.names.name(output)
            if self.edges.setdefault(name, edge) is not edge:
                raise RecordError(f"{os.fsdecode(output)}: two edges build it")
            self.leaders.setdefault(name, self._path(output if edge.is_phony else target))

    def _target(self, edge: Edge) -> bytes:
        """Return the target that has the edge's rule: its first output, or what stands for it."""
        places = [os.path.join(self.top, output) for output in edge.outputs]
        if edge.is_phony or not (
            any(map(os.path.islink, places)) or _LINKS.search(edge.text(b"command"))
        ):
            return edge.outputs[0]
        return self._stand_in(edge.outputs[0], MADE)

    def _stand_in(self, path: bytes, ending: bytes) -> bytes:
        """Return the name of a target that is no file. Raises RecordError if it has another use."""
        found = self._path(path + ending)
        if self._edge(found) or os.path.lexists(os.path.join(self.top, found)):
            raise RecordError(f"{os.fsdecode(found)}: redodb record wants the name for a target")
        return found

    def _path(self, path: bytes) -> bytes:
        """Return a target's path from the top, without links on the way."""
        return target_path(self.names, path)

    def _edge(self, path: bytes) -> Edge | None:
        return self.edges.get(self.names.name(path))

    def _ours(self) -> list[Edge]:
        """Return the edges that have rules."""
        return [edge for edge in self.manifest.edges if not edge.value(b"generator")]

    def _outputs(self, edge: Edge) -> list[bytes]:
        """Return the outputs of an edge, each once, but those that it only says are there."""
        outputs = {self.names.name(path): path for path in reversed(edge.outputs)}
        found = list(outputs.values())[::-1]
        if not _is_bare(edge):
            return found
        return [path for path in found if not os.path.lexists(os.path.join(self.top, path))]

    def _defaults(self) -> list[bytes]:
        """Return what ninja builds if nothing is named."""
        if self.manifest.defaults:
            return self.manifest.defaults
        edges = self._ours()
        used = {self.names.name(path) for edge in edges for path in edge.inputs + edge.order_only}
        outputs = [output for edge in edges for output in self._outputs(edge)]
        return [output for output in outputs if self.names.name(output) not in used]

    # ---- rules

    def _add(self, rule: Rule) -> None:
        if rule.target in self.rules:
            raise RecordError(f"{os.fsdecode(rule.target)}: its name is wanted twice")
        self.rules[rule.target] = rule

    def _named(self, edge: Edge, output: bytes) -> Rule:
        """Return the rule of a name of other targets."""
        target = self._path(output)
        place = os.path.join(self.top, target)
        has_file = os.path.lexists(place) and not os.path.isdir(place)
        # what is out of date in each run has nothing to build, and edges ask for it themselves
        inputs = [path for path in edge.inputs if not self._is_always(path)]
        asks, first, along = self._needs(inputs, edge.order_only)
        return Rule(target, asks, first, along, has_content=has_file or _is_bare(edge))

    def _built(self, edge: Edge) -> Rule:
        """Return the rule of what a command builds."""
        target = self._path(self._target(edge))
        _refuse_unknown(edge, edge.outputs[0])
        command = edge.text(b"command")
        if not command:
            raise RecordError(f"{os.fsdecode(edge.outputs[0])}: its rule has no command")
        asks, first, along = self._needs(*self._expanded(edge))
        outputs = list(dict.fromkeys(self._path(output) for output in edge.outputs))
        rule = Rule(target, asks, first, along, command=command, outputs=outputs)
        rule.depfile = edge.value(b"depfile")
        rule.keeps_depfile = not edge.value(b"deps")
        if edge.value(b"rspfile"):
            rule.response = edge.value(b"rspfile"), edge.text(b"rspfile_content")
        return rule

    def _needs(
        self, inputs: list[bytes], order_only: list[bytes]
    ) -> tuple[list[bytes], list[bytes], list[bytes]]:
        """Return what a rule asks for, what without content, and what is made along with it."""
        asks = self._asked(inputs)
        followers = [path for path in inputs + order_only if self._leader(path) != path]
        along = list(dict.fromkeys(self._along(path) for path in followers))
        built = [path for path in order_only if self._edge(path) and not self._is_always(path)]
        first = [self._first(path) for path in built]
        return asks, [path for path in dict.fromkeys(first) if path not in asks], along

    def _asked(self, paths: list[bytes]) -> list[bytes]:
        return list(dict.fromkeys(self._leader(path) for path in paths))

    def _leader(self, path: bytes) -> bytes:
        """Return the first output of the edge that makes a path, or the path itself."""
        name = self.names.name(path)
        leader = self.leaders.get(name)
        return path if leader is None or self.names.name(leader) == name else leader

    def _is_always(self, path: bytes) -> bool:
        """Whether a path is a name of nothing, which ninja takes for out of date."""
        edge = self._edge(path)
        return edge is not None and _is_bare(edge)

    def _first(self, path: bytes) -> bytes:
        """Return the target that builds this path and never changes; make it, if need be."""
        edge = self._edge(path)
        if edge is not None and edge.is_phony:
            return path
        leader = self._leader(path)
        there = self._stand_in(leader, THERE)
        self.rules.setdefault(there, Rule(there, [leader], has_content=False))
        return there

    def _along(self, path: bytes) -> bytes:
        """Return the target that has a file which is made along with another target."""
        found = self._path(path)
        there = self._stand_in(found, THERE)
        word, leader = quoted_path(found), self._leader(path)
        heal = b"[ -e %b ] || [ -L %b ] || redo %b" % (word, word, quoted_path(leader))
        self.rules.setdefault(there, Rule(there, [found], before=[heal], has_content=False))
        return there

    def _expanded(self, edge: Edge) -> tuple[list[bytes], list[bytes]]:
        """Return the inputs of an edge and its order-only ones, with what names stand for."""
        inputs: dict[bytes, None] = {}
        order_only = dict.fromkeys(edge.order_only)
        left, met = edge.inputs[::-1], set()
        while left:
            path = left.pop()
            below = self._edge(path)
            if below is None or not below.is_phony or _is_bare(below):
                inputs[path] = None
            elif path not in met:
                met.add(path)
                left += below.inputs[::-1]
                order_only.update(dict.fromkeys(below.order_only))
        return list(inputs), list(order_only)

    def _fresh(self) -> Rule:
        """Return the rule that fails if build.ninja is older than what it was generated from."""
        inputs = [path for edge in self.generators for path in edge.inputs]
        asks = [path for path in dict.fromkeys(inputs) if not self._edge(path)]
        there = [path for path in asks if os.path.isfile(os.path.join(self.top, path))]
        words = call(b"for each in", there).removeprefix(b"for each in ")
        return Rule(FRESH, there, check=[_CHECK % words] if there else [], has_content=False)


def target_path(names: Names, path: bytes) -> bytes:
    """Return a target's path from the top, without links on the way. Raises RecordError."""
    found = os.path.relpath(path_of(names.name(path), names.top), names.top)
    _refuse_bad(found)
    names.name(found + b".do")
    return found


def _is_bare(edge: Edge) -> bool:
    """Whether an edge names a file, and nothing that it is made of."""
    return edge.is_phony and not edge.inputs and not edge.order_only


def _refuse_bad(path: bytes) -> None:
    """Raise RecordError if no `.do` file can build a target of this name."""
    shown = os.fsdecode(path)
    parts = path.split(b"/")
    if parts[0] == b"..":
        raise RecordError(f"{shown}: it is outside of the tree, where redo builds nothing")
    if b".redo" in parts:
        raise RecordError(f"{shown}: .redo is redo's own")
    if path.endswith(b".do"):
        raise RecordError(f"{shown}: a .do file that is a target can't be taken over")
    if b"\n" in path or posixpath.normpath(path) == b".":
        raise RecordError(f"{shown!r}: it is no name of a file")


def _refuse_unknown(edge: Edge, target: bytes) -> None:
    """Raise RecordError if an edge has what no rule does."""
    if edge.value(b"dyndep"):
        raise RecordError(f"{os.fsdecode(target)}: dyndep isn't taken over")
    if edge.value(b"deps") not in (b"", b"gcc"):
        raise RecordError(f"{os.fsdecode(target)}: only deps = gcc is taken over")


def write_ninja_rules(top: bytes, manifest: Manifest) -> list[Rule]:
    """Write the `.do` files of a manifest, and return their rules. Raises RecordError."""
    known = NinjaRules(top, manifest)
    rules = known.all()
    if not known.has_own_all() and not is_free(top, b"all.do"):
        rules = [rule for rule in rules if rule.target != b"all"]  # somebody's own
    write_rules(top, rules, known.along())
    return rules
