"""What redo says of names and rules, in plain Python, for tests that compare redo-files with it.

The other half of the comparison is the Python package: its names, tops and stamps.
"""
import os
from stat import S_ISDIR, S_ISLNK, S_ISREG
from typing import Iterator, NamedTuple

from redodb import private
from redodb.errors import BadName, RedodbError
from redodb.names import name_of, path_of, unescape

MOST_LINKS = 40


class RuleError(RedodbError):
    """What is in the place of a .do file can't be run; the text says why."""


class Rule(NamedTuple):
    """A .do file that would build a target.

    The paths are absolute; `first` and `second` are $1 and $2.
    """

    do_file: bytes
    folder: bytes
    first: bytes
    second: bytes


class Search(NamedTuple):
    """What was found: the rule, or None, and the .do files that would have won and aren't there."""

    rule: Rule | None
    missing: list[bytes]


def extensions(name: bytes) -> Iterator[tuple[bytes, bytes]]:
    """Yields each stem and extension of a file name, the longest extension first, none last."""
    words = name.split(b".")
    for count in range(1, len(words) + 1):
        extension = b".".join(words[count:])
        yield b".".join(words[:count]), b"." + extension if extension else b""


def candidates(target: bytes, top: bytes) -> Iterator[Rule]:
    """Yields the rules of an absolute path in the order in which they win, up to those of the top.

    `T.do` is looked for in the folder of T alone; then default files, with the longest extension
    first, in that folder and in each one above it. Outside of the tree there are none.
    """
    folder, name = os.path.split(target)
    if folder != top and not folder.startswith(os.path.join(top, b"")):
        return
    yield Rule(os.path.join(folder, name + b".do"), folder, name, name)
    below = b""
    while True:
        for stem, extension in extensions(name):
            do_file = os.path.join(folder, b"default" + extension + b".do")
            yield Rule(do_file, folder, os.path.join(below, name), os.path.join(below, stem))
        if folder == top:
            return
        folder, last = os.path.split(folder)
        below = os.path.join(last, below) if below else last


def search(target: bytes, top: bytes) -> Search:
    """Returns the rule of an absolute path, and the .do files before it that aren't there.

    Raises RuleError and UntrustedError as `is_there`.
    """
    missing: list[bytes] = []
    for rule in candidates(target, top):
        if is_there(rule.do_file, top):
            return Search(rule, missing)
        missing.append(rule.do_file)
    return Search(None, missing)


def is_there(do_file: bytes, top: bytes) -> bool:
    """Returns whether there is this .do file.

    Raises RuleError if what is there is no file, and UntrustedError if it is somebody else's.
    """
    try:
        status = os.lstat(do_file)
    except OSError:
        return False
    private.check_owner(do_file, status, top)
    if S_ISLNK(status.st_mode):
        try:
            status = os.stat(do_file)
        except OSError:
            text = f"{private.shown(do_file)} is a link that leads to no file"
            raise RuleError(text) from None
        private.check_owner(do_file, status, top)
    if not S_ISREG(status.st_mode):
        what = "a folder" if S_ISDIR(status.st_mode) else "no regular file"
        raise RuleError(f"{private.shown(do_file)} is {what}")
    return True


def links_on(path: bytes) -> list[bytes]:
    """Return the symbolic links that the folders of an absolute path lead through."""
    folder = os.path.dirname(path)
    if os.path.realpath(folder) == os.path.normpath(folder):
        return []
    found: list[bytes] = []
    here = b"/"
    parts = folder.split(b"/")[::-1]
    while parts and len(found) < MOST_LINKS:
        part = parts.pop()
        one = os.path.normpath(os.path.join(here, part))
        try:
            text = os.readlink(one) if part not in (b"", b".", b"..") else None
        except OSError:
            text = None
        if text is None:
            here = one
        else:
            found.append(one)
            parts += text.split(b"/")[::-1]
            here = b"/" if text.startswith(b"/") else here
    return found


def relative_path(name: bytes, top: bytes, folder: bytes) -> bytes:
    """Return the path of a name from a folder; a name that no path has is returned as it is.
    """
    try:
        return os.path.relpath(path_of(name, top), folder)
    except BadName:
        return name


def name_inside(path: bytes, top: bytes, seen: set[bytes]) -> bytes:
    """Return the name of a path as name_of, if it is in this tree and in no other.

    Folders that were seen aren't looked at; all that are in order are added. Raises OtherTree too.
    """
    name = name_of(path, top)
    _check_inside(name, top, seen)
    return name


def _check_inside(name: bytes, top: bytes, seen: set[bytes]) -> None:
    """Raise OtherTree if a folder below the top on the way to a name has .redo, as name_inside."""
    if b"/" not in name or name.startswith((b"../", b"/")):
        return  # at the top, outside of it, or no file
    folder = os.path.dirname(unescape(name))
    looked_at = []
    while folder and folder not in seen:
        inner = os.path.join(top, folder)
        if os.access(os.path.join(inner, private.HOME, b"."), os.F_OK):
            raise private.two_trees(inner, top)
        looked_at.append(folder)
        folder = os.path.dirname(folder)
    seen.update(looked_at)
