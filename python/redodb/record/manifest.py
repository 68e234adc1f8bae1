"""Reading build.ninja: its edges, with all variables put in."""

import os
import posixpath
import re
from dataclasses import dataclass, field, replace

from .graph import RecordError
from .shell import quoted

_CONTINUED = re.compile(rb"\$\$|\$\r?\n[ ]*")
_VARIABLE = re.compile(rb"\$(?:\{([A-Za-z0-9_.-]+)\}|([A-Za-z0-9_-]+)|([$ :]))")
_PATH = re.compile(rb"(?:\$\{[^}]*\}|\$[A-Za-z0-9_-]+|\$[$ :]|[^$ :|])+|\|\||\|@|\||:")
_BINDING = re.compile(rb"\s*([A-Za-z0-9_.-]+)\s*=[ ]*(.*)")
_SEPARATORS = (b"|", b"||", b"|@", b":")


@dataclass
class Scope:
    """The variables and rules of a file; those of the file that includes it come after them."""

    outer: "Scope | None" = None
    variables: dict[bytes, bytes] = field(default_factory=dict)
    rules: dict[bytes, dict[bytes, bytes]] = field(default_factory=dict)

    def value(self, name: bytes) -> bytes:
        """Return the variable's value; nothing if it has none."""
        if name in self.variables:
            return self.variables[name]
        return self.outer.value(name) if self.outer else b""

    def rule(self, name: bytes) -> dict[bytes, bytes]:
        """Return the bindings of a rule, as they are written."""
        if name in self.rules:
            return self.rules[name]
        return self.outer.rule(name) if self.outer else {}

    def put_in(self, text: bytes) -> bytes:
        """Return the text with its variables and escapes replaced."""
        return _VARIABLE.sub(lambda found: found[3] or self.value(found[1] or found[2]), text)


@dataclass
class Edge(Scope):
    """One `build` statement, which is the innermost scope of its own variables."""

    rule_name: bytes = b""
    outputs: list[bytes] = field(default_factory=list)
    inputs: list[bytes] = field(default_factory=list)
    """Explicit and implicit ones; order-only ones make nothing out of date."""
    explicit_outputs: list[bytes] = field(default_factory=list)
    explicit_inputs: list[bytes] = field(default_factory=list)
    order_only: list[bytes] = field(default_factory=list)
    is_for_a_shell: bool = False
    """Whether the paths in variables are quoted, as ninja does in commands."""

    @property
    def is_phony(self) -> bool:
        return self.rule_name == b"phony"

    def value(self, name: bytes) -> bytes:
        """Return a variable as the edge's rule sees it."""
        if name in (b"out", b"in", b"in_newline"):
            paths = self.explicit_outputs if name == b"out" else self.explicit_inputs
            words = [quoted(path) for path in paths] if self.is_for_a_shell else paths
            return (b"\n" if name == b"in_newline" else b" ").join(words)
        if name not in self.variables:
            rule = self.rule(self.rule_name)
            if name in rule:
                return self.put_in(rule[name])
        return super().value(name)

    def text(self, name: bytes) -> bytes:
        """Return a variable as a shell is to read it. Raises RecordError if it has no end."""
        try:
            return replace(self, is_for_a_shell=True).value(name)
        except RecursionError:
            raise RecordError(
                f"{os.fsdecode(self.rule_name)}: its {name.decode()} is made of itself"
            ) from None


@dataclass
class Manifest:
    """The edges of build.ninja, what it builds by default, and the folder of ninja's logs."""

    edges: list[Edge] = field(default_factory=list)
    defaults: list[bytes] = field(default_factory=list)
    builddir: bytes = b""


def read_manifest(top: bytes, name: bytes = b"build.ninja") -> Manifest:
    """Return the edges of the file in the folder `top`, and of all files that it includes.

    What dyndep files add to the edges is in them. Raises RecordError if a file can't be read, or
    a statement isn't one of ninja's.
    """
    manifest, scope = Manifest(), Scope()
    _read_file(top, name, scope, manifest)
    manifest.builddir = scope.value(b"builddir")
    edges = {output: edge for edge in manifest.edges for output in edge.outputs}
    for dyndeps in dict.fromkeys(edge.value(b"dyndep") for edge in manifest.edges):
        if dyndeps and os.path.exists(os.path.join(top, dyndeps)):
            _add_dyndeps(top, dyndeps, edges)
    return manifest


def _text(top: bytes, name: bytes) -> bytes:
    try:
        with open(os.path.join(top, name), "rb") as file:
            return file.read()
    except OSError as error:
        raise RecordError(f"{os.fsdecode(name)}: {error.strerror}") from error


def _add_dyndeps(top: bytes, name: bytes, edges: dict[bytes, Edge]) -> None:
    """Add what a dyndep file says of each edge: further outputs and inputs."""
    for statement, bindings in _statements(name, _text(top, name)):
        word, _, rest = statement.partition(b" ")
        if word == b"build":
            found = _edge(name, rest, bindings, Scope())
            edge = edges.get(found.outputs[0], found)
            edge.outputs += found.outputs[1:]
            edge.inputs += found.inputs
            edge.variables |= found.variables


def _read_file(top: bytes, name: bytes, scope: Scope, manifest: Manifest) -> None:
    for statement, bindings in _statements(name, _text(top, name)):
        word, _, rest = statement.partition(b" ")
        if word == b"build":
            manifest.edges.append(_edge(name, rest, bindings, scope))
        elif word == b"rule":
            scope.rules[rest.strip()] = dict(bindings)
        elif word in (b"include", b"subninja"):
            inner = scope if word == b"include" else Scope(scope)
            _read_file(top, scope.put_in(rest.strip()), inner, manifest)
        elif word == b"default":
            words = _PATH.findall(rest.strip())
            manifest.defaults += _parts(words, scope)[b":"]
        elif word != b"pool":
            variable, value = _binding(name, statement)
            scope.variables[variable] = scope.put_in(value)


_Block = tuple[bytes, list[tuple[bytes, bytes]]]


def _statements(name: bytes, text: bytes) -> list[_Block]:
    """Return each statement with the indented bindings below it, as they are written."""
    text = _CONTINUED.sub(lambda found: found[0] if found[0] == b"$$" else b"", text)
    blocks: list[_Block] = []
    for line in text.splitlines():
        if not line.strip() or line.lstrip().startswith(b"#"):
            continue
        if not line.startswith(b" "):
            blocks.append((line, []))
        elif blocks:
            blocks[-1][1].append(_binding(name, line))
    return blocks


def _binding(name: bytes, line: bytes) -> tuple[bytes, bytes]:
    found = _BINDING.fullmatch(line)
    if found is None:
        raise RecordError(f"{os.fsdecode(name)}: no statement of ninja: {os.fsdecode(line[:60])}")
    return found[1], found[2]


def _edge(name: bytes, rest: bytes, bindings: list[tuple[bytes, bytes]], scope: Scope) -> Edge:
    """Return the edge of a build statement: outputs, a colon, its rule and its inputs."""
    edge = Edge(scope)
    for variable, value in bindings:
        edge.variables[variable] = scope.put_in(value)
    words = _PATH.findall(rest.strip())
    if b":" not in words[:-1]:
        raise RecordError(f"{os.fsdecode(name)}: no build statement: {os.fsdecode(rest[:60])}")
    colon = words.index(b":")
    outputs, inputs = _parts(words[:colon], edge), _parts(words[colon + 2 :], edge)
    edge.rule_name = words[colon + 1]
    edge.outputs = outputs[b":"] + outputs[b"|"]
    edge.inputs = inputs[b":"] + inputs[b"|"]
    edge.explicit_outputs, edge.explicit_inputs = outputs[b":"], inputs[b":"]
    edge.order_only = inputs[b"||"]
    return edge


def _parts(words: list[bytes], scope: Scope) -> dict[bytes, list[bytes]]:
    """Return the paths after each separator; the explicit ones are at the colon."""
    parts: dict[bytes, list[bytes]] = {separator: [] for separator in _SEPARATORS}
    part = b":"
    for word in words:
        if word in _SEPARATORS:
            part = word
        else:
            parts[part].append(posixpath.normpath(scope.put_in(word)))
    return parts
