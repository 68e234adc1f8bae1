"""Words of a shell."""

import re

_PLAIN = re.compile(rb"[A-Za-z0-9_+./-]+")
_WIDTH = 100


def quoted(word: bytes) -> bytes:
    """Return a word as a shell reads it, as ninja writes paths in commands.

    >>> quoted(b"src/a.c"), quoted(b"it's")
    (b'src/a.c', b"'it'\\\\''s'")
    """
    if _PLAIN.fullmatch(word):
        return word
    return b"'" + word.replace(b"'", b"'\\''") + b"'"


def quoted_path(path: bytes) -> bytes:
    """Return a path as a shell reads it; no program takes it for an option."""
    return quoted(b"./" + path if path.startswith(b"-") else path)


def call(program: bytes, paths: list[bytes]) -> bytes:
    """Return the call of a program with paths, in lines of a width that can be read."""
    lines = [program]
    for path in paths:
        word = quoted_path(path)
        if len(lines[-1]) + len(word) > _WIDTH - 3 and lines[-1] != program:
            lines[-1] += b" \\"
            lines.append(b"   ")
        lines[-1] += b" " + word
    return b"\n".join(lines)
