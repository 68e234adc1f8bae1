"""What a build tool knows, as redo is to know it that goes on with the rules of the tree."""

import hashlib
import os

from ..names import path_of
from .graph import Graph, Standing, Target
from .names import Names
from .rules import Rule

_NOTHING = hashlib.sha256().hexdigest().encode()
"""What `redo-stamp </dev/null` reports."""


def ruled(graph: Graph, rules: list[Rule], names: Names) -> Graph:
    """Return the graph of the targets that have a rule, with what their scripts ask for.

    The graph's paths are names. What a build makes along with its first output has no rule, so it
    is a source.
    """
    found: Graph = {}
    stand_ins = {names.name(rule.target) for rule in rules if not rule.has_content}
    for rule in rules:
        name = names.name(rule.target)
        known = graph.get(names.name((rule.outputs or [rule.target])[0]), Target())
        asks = [names.name(path) for path in rule.asks + rule.along]
        is_name = not rule.has_content
        read = [] if is_name else [each for each in known.inputs if each not in stand_ins]
        inputs = [each for each in dict.fromkeys(asks + read) if each != name]
        standing = known.standing
        checked = known.checked or 0
        others = [path for path in rule.outputs if path != rule.target]
        if any(_is_older(names, path, checked, inputs) for path in others):
            standing = Standing.UNBUILT
        script = names.name(rule.script)
        digest = None if rule.has_content else _NOTHING
        found[name] = Target(inputs, standing, known.checked, digest=digest, aside=[script])
    return found


def _is_older(names: Names, path: bytes, checked: int, inputs: list[bytes]) -> bool:
    """Whether a file is older than one of these, or isn't there."""
    written = _time(os.path.join(names.top, path))
    times = [_time(path_of(each, names.top)) or 0 for each in inputs]
    return written is None or max(times, default=0) > max(written, checked)


def _time(path: bytes) -> int | None:
    try:
        return os.stat(path).st_mtime_ns
    except OSError:
        return None
