"""What GNU make knows: the database that `make -pn` prints, of the goals that it was given."""

import itertools
import os
import re
import subprocess

from .graph import Graph, RecordError, Standing, Target

_ENTERING = re.compile(rb"^(?:# )?[^ ]+: Entering directory '(.*)'$")
_LEAVING = re.compile(rb"^(?:# )?[^ ]+: Leaving directory '.*'$")
_BEGIN = b"# Files"
_END = b"# Finished Make data base"
_PHONY = b"#  Phony target (prerequisite of .PHONY)."
_RECIPE = b"#  recipe to execute "
_CONSIDERED = b"#  File has been updated."
_ALSO = b"#  Also makes: "
_NO_TARGET = b"# Not a target:"
_SEARCHED = b"#  Implicit rule search has "

Stanza = list[bytes]
"""The lines about one file: variables, `# Not a target:` if it is none, its rule, and the rest."""


def read_make(top: bytes, words: list[str]) -> Graph:
    """Return what make knows of what its goals need; the words are goals and variables for make.

    A makefile that calls make in other folders is followed. As ever with -n, make builds what it
    includes, and runs the recipes that call make. Raises RecordError if make fails.
    """
    command = ["make", "-C", os.fsdecode(top), "-pn", "--print-directory", *words]
    try:
        run = subprocess.run(
            command, capture_output=True, check=False, env={**os.environ, "LC_ALL": "C"}
        )
    except OSError as error:
        raise RecordError(f"make: {error.strerror}") from error
    if run.returncode:
        errors = run.stderr.decode(errors="replace").strip().splitlines() or [
            f"make: status {run.returncode}"
        ]
        raise RecordError(errors[-1])
    graph: Graph = {}
    for folder, stanzas in _databases(run.stdout):
        known = {_head(stanza) for stanza in stanzas}
        for stanza in stanzas:
            _add(graph, folder, stanza, known)
    return graph


def _databases(text: bytes) -> list[tuple[bytes, list[Stanza]]]:
    """Return what each make says of its files, with the folder that it ran in."""
    folders: list[bytes] = []
    found: list[tuple[bytes, list[Stanza]]] = []
    inside = False
    for line in text.split(b"\n"):
        if entered := _ENTERING.match(line):
            folders.append(entered[1])
        elif _LEAVING.match(line) and folders:
            folders.pop()
        elif line == _BEGIN:
            inside = True
            found.append((folders[-1] if folders else b".", [[]]))
        elif line.startswith(_END):
            inside = False
        elif inside and line:
            found[-1][1][-1].append(line)
        elif inside:
            found[-1][1].append([])
    return [(folder, [stanza for stanza in stanzas if _rule(stanza)]) for folder, stanzas in found]


def _rule(stanza: Stanza) -> bytes:
    """Return the rule of a stanza; nothing if it has none.

    It is the last line before what make knows of the file. Before it are variables of the target,
    which look like rules, and may have several lines.
    """
    first = list(itertools.takewhile(lambda line: not line.startswith(_SEARCHED), stanza))
    if len(first) == len(stanza):
        return b""
    return next((line for line in reversed(first) if not line.startswith(b"#  ")), b"")


def _head(stanza: Stanza) -> bytes:
    """Return the name of the file that the stanza is about."""
    rule = _rule(stanza)
    name, colon, _ = rule.partition(b": ")
    return name.rstrip(b":") if colon else rule.rstrip(b": ")


def _inputs(stanza: Stanza, known: set[bytes]) -> list[bytes]:
    """Return the inputs of a rule but the order-only ones.

    make prints them with blanks between, also if there are blanks in a name: so words that
    together are the name of a file which make knows are taken as that name.
    """
    words = _rule(stanza).partition(b": ")[2].split(b" | ")[0].strip().split(b" ")
    if words[0] == b"|":
        return []
    inputs = []
    while words:
        count = next(
            (
                size
                for size in range(min(len(words), 16), 1, -1)
                if b" ".join(words[:size]) in known
            ),
            1,
        )
        inputs.append(b" ".join(words[:count]))
        words = words[count:]
    return [name for name in inputs if name]


def _add(graph: Graph, folder: bytes, stanza: Stanza, known: set[bytes]) -> None:
    """Add the target of a stanza to the graph, if make met it on the way to its goals."""
    if _NO_TARGET in stanza or _CONSIDERED not in stanza:
        return
    inputs = [os.path.join(folder, name) for name in _inputs(stanza, known)]
    has_recipe = any(line.startswith(_RECIPE) for line in stanza)
    path = os.path.join(folder, _head(stanza))
    is_file = os.path.exists(path)
    if not inputs and not has_recipe and is_file:
        return  # a source: -MP writes such rules
    standing = Standing.BUILT
    if _PHONY in stanza or not (is_file or has_recipe):
        standing = Standing.ALWAYS
    elif not is_file:
        standing = Standing.UNBUILT
    graph[path] = Target(inputs, standing)
    for line in stanza:
        for name in line.removeprefix(_ALSO).split(b" ") if line.startswith(_ALSO) else ():
            graph[os.path.join(folder, name)] = Target(list(inputs), standing)
