"""The rules of a compilation database: compile_commands.json."""

import json
import os
import shlex

from .graph import RecordError
from .names import Names
from .ninja_rules import target_path
from .rule_files import is_free
from .rules import Rule, write_rules

FILE = b"compile_commands.json"
_READS = ("-MD", "-MMD")


def write_compile_rules(top: bytes) -> None:
    """Write the `.do` files of the objects that the database names. Raises RecordError."""
    rules: dict[bytes, Rule] = {}
    for entry in _entries(top):
        rule = _rule(top, entry)
        former = rules.setdefault(rule.target, rule)
        if former.command != rule.command:
            raise RecordError(f"{os.fsdecode(rule.target)}: two commands build it")
    if is_free(top, b"all.do"):
        rules[b"all"] = Rule(b"all", list(rules), has_content=False)
    write_rules(top, list(rules.values()), {})


def _entries(top: bytes) -> list[dict[str, object]]:
    """Return the entries of the database."""
    try:
        with open(os.path.join(top, FILE), "rb") as file:
            found = json.load(file)
    except OSError as error:
        raise RecordError(f"{os.fsdecode(FILE)}: {error.strerror}") from error
    except (ValueError, RecursionError) as error:
        raise RecordError(f"{os.fsdecode(FILE)}: {error}") from error
    if not isinstance(found, list) or not all(isinstance(each, dict) for each in found):
        raise RecordError(f"{os.fsdecode(FILE)}: no list of commands")
    if not found:
        raise RecordError(f"{os.fsdecode(FILE)}: no command")
    return found


def _text(entry: dict[str, object], key: str) -> str:
    """Return what an entry has of a key; nothing if it hasn't. Raises RecordError."""
    value = entry.get(key, "")
    if not isinstance(value, str) or "\0" in value:
        raise RecordError(f"{os.fsdecode(FILE)}: {key} is no text: {str(value)[:60]!r}")
    return value


def _words(entry: dict[str, object]) -> list[str]:
    """Return the words of an entry's command."""
    words = entry.get("arguments")
    if words is None:
        try:
            return shlex.split(_text(entry, "command"))
        except ValueError as error:
            raise RecordError(f"{os.fsdecode(FILE)}: {error}: {entry['command']!r}") from error
    if not isinstance(words, list) or not all(isinstance(word, str) for word in words):
        raise RecordError(f"{os.fsdecode(FILE)}: arguments are no list of texts")
    return words


def _after(words: list[str], option: str) -> str:
    """Return the word after an option; nothing if it isn't there."""
    at = words.index(option) + 1 if option in words else len(words)
    return words[at] if at < len(words) else ""


def _rule(top: bytes, entry: dict[str, object]) -> Rule:
    """Return the rule of an entry. Raises RecordError."""
    words, source = _words(entry), _text(entry, "file")
    output = _after(words, "-o") or _text(entry, "output")
    if not (words and source and output):
        raise RecordError(f"{os.fsdecode(FILE)}: no command, file or -o: {source or words!r}")
    folder = os.path.join(os.path.realpath(top), os.fsencode(_text(entry, "directory")))
    if not os.path.isdir(folder):
        raise RecordError(f"{os.fsdecode(folder)}: no folder")
    target = target_path(Names(top), os.path.join(folder, os.fsencode(output)))
    command = _text(entry, "command") or shlex.join(words)
    depfile = _after(words, "-MF")
    keeps_depfile = bool(depfile)
    if not depfile:
        depfile = output + ".d"
        reads = "" if any(word in words for word in _READS) else " -MD"
        command += f"{reads} -MF {shlex.quote(depfile)}"
    place = os.path.join(folder, os.fsencode(source))
    if place.startswith(os.path.realpath(top) + b"/"):
        place = os.path.relpath(place, folder)
    return Rule(
        target,
        [place],
        command=os.fsencode(command),
        folder=os.path.relpath(os.path.realpath(folder), os.path.realpath(top)),
        outputs=[target],
        depfile=os.fsencode(depfile),
        keeps_depfile=keeps_depfile,
    )
