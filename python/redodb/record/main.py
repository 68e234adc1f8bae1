"""The command line of `redodb record`."""

import os
import sys
from collections.abc import Iterable
from dataclasses import dataclass, field

from .. import private
from ..errors import ServerError
from ..places import Places
from .compile_commands import write_compile_rules
from .depfiles import read_depfiles
from .events import Story
from .graph import Graph, RecordError
from .history import answered, write_history
from .make import read_make
from .marks import mark_whole
from .names import Names
from .ninja import NinjaTree
from .ninja_rules import write_ninja_rules
from .ruled import ruled
from .rules import Rule

USAGE = """\
usage: redodb record ninja DIR [--rules] [--log FILE]
       redodb record make DIR [--log FILE] [WORD..]
       redodb record depfiles DIR [--log FILE]
       redodb record compdb DIR --rules

Writes what a build tool knows of the tree in DIR to standard output, as one history:

    ninja DIR         build.ninja, ninja's deps log and its build log
    make DIR WORD..   what `make -pn WORD..` says of its goals, from included depfiles as well
    depfiles DIR      all files *.d below DIR; names in them are relative to DIR

    --log FILE        writes a log for redodb-live in place of the history: FILE must not be there
    --rules           writes .do files in place of the history, by which redo builds what ninja
                      builds, or what DIR/compile_commands.json names: with --log DIR/.redo/log,
                      redo goes on from ninja's build. No file is replaced that it didn't write
"""
KINDS = ("ninja", "make", "depfiles", "compdb")


class UsageError(Exception):
    """Words that mean nothing."""


@dataclass
class Wish:
    """What the words on the command line ask for."""

    kind: str
    top: bytes
    log: bytes | None = None
    has_rules: bool = False
    words: list[str] = field(default_factory=list)


def _parsed(words: list[str]) -> Wish:
    """Return what the words ask for. Raises UsageError."""
    log = None
    has_rules = "--rules" in words
    words = [word for word in words if word != "--rules"] if words[:1] != ["make"] else words
    if "--log" in words:
        at = words.index("--log")
        if at + 1 == len(words):
            raise UsageError
        log = os.fsencode(words[at + 1])
        words = words[:at] + words[at + 2 :]
    if len(words) < 2 or words[0] not in KINDS or words[1].startswith("-"):
        raise UsageError
    if has_rules and words[0] not in ("ninja", "compdb"):
        raise UsageError
    if words[0] == "compdb" and (log or not has_rules):
        raise UsageError
    if len(words) > 2 and words[0] != "make":
        raise UsageError
    return Wish(words[0], os.fsencode(words[1]), log, has_rules, words[2:])


def _read(wish: Wish) -> Graph:
    """Return what the tool knows of the tree; with rules, write them as well."""
    names = Names(wish.top)
    if wish.kind == "compdb":
        write_compile_rules(wish.top)
        return {}
    if wish.kind == "ninja":
        tree = NinjaTree(wish.top)
        if not wish.has_rules:
            return names.graph(tree.graph())
        rules = write_ninja_rules(wish.top, tree.manifest)
        if wish.log is None:
            _warn_of_sources(wish.top, rules)
            return {}
        return ruled(names.graph(tree.graph()), rules, names)
    if wish.kind == "make":
        return names.graph(read_make(wish.top, wish.words))
    return names.graph(read_depfiles(wish.top))


def _warn_of_sources(top: bytes, rules: list[Rule]) -> None:
    """Say what redo would take for files that no build made."""
    if os.path.lexists(os.path.join(top, b".redo")):
        return
    built = [output for rule in rules for output in rule.outputs]
    there = [path for path in built if os.path.lexists(os.path.join(top, path))]
    if there:
        _say(
            f"{os.fsdecode(there[0])} is there, which redo takes for a source, and"
            f" {len(there) - 1} more: add --log DIR/.redo/log, or remove them (ninja -t clean)"
        )


def _record(wish: Wish) -> None:
    if not os.path.isdir(wish.top):
        raise RecordError(f"{os.fsdecode(wish.top)}: no folder")
    if wish.log is not None and os.path.lexists(wish.log):
        raise RecordError(f"{os.fsdecode(wish.log)}: File exists")
    graph = _read(wish)
    if wish.has_rules and wish.log is None:
        return
    if not graph:
        raise RecordError(f"{os.fsdecode(wish.top)}: no target")
    commands = Story(graph, wish.top).commands()
    if wish.log is None:
        write_history(answered(commands), sys.stdout.buffer)
        sys.stdout.buffer.flush()
    else:
        _write_log(wish.top, wish.log, commands)


def _write_log(top: bytes, log: bytes, commands: Iterable[bytes]) -> None:
    places = Places(os.path.realpath(top))
    is_of_redo = os.path.realpath(log) == places.log
    if is_of_redo:
        places.make()
    file = os.open(log, os.O_CREAT | os.O_EXCL | os.O_WRONLY | os.O_CLOEXEC, 0o666)
    try:
        if is_of_redo:
            private.give_away(file, places.top)
    finally:
        os.close(file)
    try:
        answered(commands, log)
        if is_of_redo:
            mark_whole(places)  # else what is edited from now on would be built again
    except (RecordError, ServerError, OSError):
        os.unlink(log)
        raise


def _say(text: str) -> None:
    """Print one line on standard error, whatever is in the names that it has."""
    shown = (each if each.isprintable() else repr(each)[1:-1] for each in text)
    print(f"redodb record: {''.join(shown)}", file=sys.stderr)


def main(arguments: list[str]) -> int:
    """Run `redodb record`. Return the status: 0, or 2 with a line on standard error."""
    if arguments in (["--help"], ["-h"]):
        print(USAGE, end="")
        return 0
    try:
        _record(_parsed(arguments))
    except UsageError:
        print(USAGE, end="", file=sys.stderr)
        return 2
    except (RecordError, ServerError) as error:
        _say(str(error))
        return 2
    except OSError as error:
        _say(f"{os.fsdecode(error.filename or '-')}: {error.strerror}")
        return 2
    return 0
