"""The subcommands of redodb in Python: `redodb record|picture ..`, which runs this file.

An older Python has to read it up to the line about its version: there is nothing newer in it.
"""

import sys

if sys.version_info < (3, 11):
    sys.stderr.write("redodb: it needs Python 3.11, and %s is older\n" % sys.executable)
    sys.exit(2)

import importlib
import os

if not __package__:
    sys.path.insert(0, os.path.dirname(os.path.dirname(os.path.realpath(__file__))))

from redodb import __version__

USAGE = """\
usage: redodb record ninja|make|depfiles DIR
       redodb picture run|graph FILE
       redodb WORD --help

    record    what another build tool knows of a tree, as a history
    picture   what a history or a log tells, as a picture
"""
MODULES = {"record": ".record.main", "picture": ".picture.main"}
"""Each word's module, which has a function main: the arguments after the word, and the status."""


def main(arguments: list[str]) -> int:
    """Run the word. Return its status: 2 if there is no such word."""
    word = arguments[0] if arguments else ""
    if word in MODULES:
        module = importlib.import_module(MODULES[word], "redodb")
        return int(module.main(arguments[1:]))
    if arguments == ["--version"]:
        print("redodb " + __version__)
        return 0
    if arguments in (["--help"], ["-h"]):
        print(USAGE, end="")
        return 0
    print(USAGE, end="", file=sys.stderr)
    return 2


if __name__ == "__main__":
    sys.exit(main(sys.argv[1:]))
