"""The name of a file in the database, and the file of a name.

A name is the path of the file relative to the top of the tree, with symbolic links in the folder
part resolved. Bytes that no name may have are written %XX. Paths and names are bytes.
"""
import os

from .errors import BadName, NameTooLong

MOST_BYTES = 255

_VISIBLE = bytes(range(33, 127))
_PLAIN = _VISIBLE.replace(b"%", b"")
_ESCAPED = {byte: bytes([byte]) if byte in _PLAIN else b"%%%02X" % byte for byte in range(256)}
_DIGITS = b"0123456789ABCDEF"


def is_name(name: bytes) -> bool:
    """Say whether the database takes these bytes as a name."""
    return (
        0 < len(name) <= MOST_BYTES
        and not name.translate(None, _VISIBLE)
        and name not in (b"-", b"=>")
        and name[:1] != b"#"
    )


def is_internal(name: bytes) -> bool:
    """Say whether a name is one of redo's own, which no path has.

    >>> is_internal(b"//always"), is_internal(b"a//b")
    (True, False)
    """
    return name.startswith(b"//")


def name_of(path: bytes, top: bytes) -> bytes:
    """Return the name of a path, which is absolute or relative to the working folder.

    top is the top of the tree, absolute and without symbolic links, as places.find_top returns it.
    The last part of the path is kept as it is, also if it is a symbolic link; a path that ends
    with `/`, `.` or `..` is a folder, and resolved whole. Raises BadName for an empty path, and
    NameTooLong.

    >>> name_of(b"/tree/src/a file.c", b"/tree")
    b'src/a%20file.c'
    >>> name_of(b"/tree/../other/x", b"/tree")
    b'../other/x'
    """
    if not path:
        raise BadName("an empty path has no name")
    folder, last = os.path.split(path)
    if last in (b"", b".", b".."):
        whole = os.path.realpath(path)
    else:
        whole = os.path.join(os.path.realpath(folder or b"."), last)
    inside = top if top.endswith(b"/") else top + b"/"
    if whole.startswith(inside) and len(whole) > len(inside):
        return escape(whole[len(inside) :])
    return escape(os.path.relpath(whole, top))


def path_of(name: bytes, top: bytes) -> bytes:
    """Return the path of a name, below top (or beside it, if the name begins with `../`).

    Raises BadName if the name is one of redo's own, or isn't one that name_of returns.

    >>> path_of(b"src/a%20file.c", b"/tree")
    b'/tree/src/a file.c'
    """
    if is_internal(name):
        raise BadName(f"{name.decode()} is the name of no file")
    return os.path.join(top, unescape(name))


def escape(path: bytes) -> bytes:
    """Return a relative path as a name. Raises NameTooLong.

    >>> escape(b"#notes"), escape(b"-"), escape(b"100%")
    (b'%23notes', b'%2D', b'100%25')
    """
    name = path
    if path.translate(None, _PLAIN):
        name = b"".join([_ESCAPED[byte] for byte in path])
    if name[:1] == b"#" or name in (b"-", b"=>"):
        name = b"%%%02X" % name[0] + name[1:]
    if len(name) > MOST_BYTES:
        raise NameTooLong(
            f"the name of {os.fsdecode(path)} has {len(name)} bytes, over {MOST_BYTES}"
        )
    return name


def unescape(name: bytes) -> bytes:
    """Return the relative path of a name. Raises BadName if escape returns no such name.

    >>> unescape(b"%23notes")
    b'#notes'
    """
    if not is_name(name):
        raise BadName(f"not a name: {name!r}")
    if b"%" not in name:
        return name
    first, *others = name.split(b"%")
    for part in others:
        if len(part) < 2 or part[0] not in _DIGITS or part[1] not in _DIGITS:
            raise BadName(f"no two digits behind a % in {name.decode()}")
    path = first + b"".join([bytes([int(part[:2], 16)]) + part[2:] for part in others])
    if b"\0" in path or escape(path) != name:
        raise BadName(f"not the name of a path: {name.decode()}")
    return path
