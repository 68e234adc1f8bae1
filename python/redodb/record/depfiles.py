"""A folder of depfiles: what was compiled, and what that read."""

import os

from .depfile import read_rules
from .graph import Graph, RecordError, Standing, Target


def read_depfiles(top: bytes) -> Graph:
    """Return the targets of all files `*.d` below this folder; names in them are relative to it.

    Raises RecordError if there is no such file, or one can't be read.
    """
    graph: Graph = {}
    for path in _found(top):
        try:
            with open(path, "rb") as file:
                rules = read_rules(file.read())
        except OSError as error:
            raise RecordError(f"{os.fsdecode(path)}: {error.strerror}") from error
        for name, inputs in rules.items():
            graph.setdefault(name, Target()).inputs.extend(inputs)
    if not graph:
        raise RecordError(f"{os.fsdecode(top)}: no depfile with a rule below it")
    for name, target in graph.items():
        if not os.path.exists(os.path.join(top, name)):
            target.standing = Standing.UNBUILT
    return graph


def _found(top: bytes) -> list[bytes]:
    """Return the paths of the depfiles, sorted; hidden folders are passed over."""
    found = []
    for folder, inner, files in os.walk(top):
        inner[:] = [name for name in inner if not name.startswith(b".")]
        found += [os.path.join(folder, name) for name in files if name.endswith(b".d")]
    return sorted(found)
