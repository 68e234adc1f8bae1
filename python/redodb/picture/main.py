"""The command line of `redodb picture`."""

import os
import re
import sys

from ..errors import RedodbError
from .told import read_lines

MOST_LINES = 500
MOST_TARGETS = 40
USAGE = f"""\
usage: redodb picture run FILE [--lines FIRST-LAST]
       redodb picture graph FILE TARGET [--targets N]

Writes a picture of FILE, a history or a log of redodb-live, to standard output:

    run      SVG: a lane for each session, with its locks, builds and what it met
    graph    text for dot: what TARGET, a name of the database, was built from at the end of FILE;
             what is out of date is marked, and bold is the chain to the reason why TARGET is

    --lines FIRST-LAST    shows these lines, counted from 1, in place of the first {MOST_LINES}
    --targets N           shows at most N targets, in place of {MOST_TARGETS}
"""


class UsageError(Exception):
    """Words that mean nothing."""


def _option(words: list[str], option: str, form: str) -> tuple[list[str], list[int]]:
    """Return the words without this option, and the numbers of its value, if it is given."""
    if option not in words:
        return words, []
    at = words.index(option)
    found = re.fullmatch(form, words[at + 1]) if at + 1 < len(words) else None
    if found is None:
        raise UsageError
    return words[:at] + words[at + 2 :], [int(number) for number in found.groups()]


def _run(words: list[str]) -> str:
    """Return the SVG text of a history."""
    from .lanes import lanes_of
    from .svg import Drawing, Window

    words, numbers = _option(words, "--lines", r"([1-9][0-9]*)-([1-9][0-9]*)")
    if len(words) != 1 or (numbers and numbers[0] > numbers[1]):
        raise UsageError
    lines = read_lines(os.fsencode(words[0]))
    first, last = numbers or (1, MOST_LINES)
    window = Window(min(first, max(1, len(lines))), min(last, max(1, len(lines))))
    return Drawing(lanes_of(lines), window).draw()


def _graph(words: list[str]) -> str:
    """Return the text for dot of a target."""
    from ..conversation import Conversation
    from ..names import is_name
    from .dot import Dot
    from .graph import Questions, graph_of

    words, numbers = _option(words, "--targets", r"([1-9][0-9]*)")
    if len(words) != 2 or not is_name(os.fsencode(words[1])):
        raise UsageError
    path, root = os.fsencode(words[0]), os.fsencode(words[1])
    lines = read_lines(path, from_nothing=True)
    with Conversation() as database:
        questions = Questions(database, path, lines)
        return Dot(graph_of(questions, root, numbers[0] if numbers else MOST_TARGETS)).draw()


def main(arguments: list[str]) -> int:
    """Run `redodb picture`. Return the status: 0, or 2 with a line on standard error."""
    if arguments in (["--help"], ["-h"]):
        print(USAGE, end="")
        return 0
    try:
        draw = {"run": _run, "graph": _graph}.get(arguments[0] if arguments else "")
        if draw is None:
            raise UsageError
        sys.stdout.write(draw(arguments[1:]))
        sys.stdout.flush()
    except UsageError:
        print(USAGE, end="", file=sys.stderr)
        return 2
    except RedodbError as error:
        print(f"redodb picture: {error}", file=sys.stderr)
        return 2
    except OSError as error:
        print(
            f"redodb picture: {os.fsdecode(error.filename or '-')}: {error.strerror}",
            file=sys.stderr,
        )
        return 2
    return 0
