"""Reading depfiles: the rules in make's language that compilers write with -MD."""

import re

# a name of one file: a blank, `#`, `:` or `\` may have `\` in front, and `$$` is a dollar
_NAME = re.compile(rb"(?:\$\$|\\+[ \t]|\\[#:%\[\]*]|\\(?!\n|\r\n)|:(?![\s]|$)|[^\\\s:])+")
_CONTINUED = re.compile(rb"\\\r?\n")


def _plain(word: bytes) -> bytes:
    """Return the name of the file that a word of a depfile means."""
    word = re.sub(rb"(\\+)([ \t])", _blank, word)
    word = re.sub(rb"\\([#:%\[\]*])", rb"\1", word)
    return word.replace(b"$$", b"$")


def _blank(found: re.Match[bytes]) -> bytes:
    """Return a blank and the backslashes before it: they are doubled, and one more is added."""
    return found[1][: len(found[1]) // 2] + found[2]


def read_rules(text: bytes) -> dict[bytes, list[bytes]]:
    """Return the inputs of each target of a depfile's text, in their order.

    A target without inputs is left out: -MP writes such a rule for each header.
    """
    rules: dict[bytes, list[bytes]] = {}
    for line in _CONTINUED.sub(b" ", text).splitlines():
        left, colon, right = _split(line)
        inputs = [_plain(word) for word in _NAME.findall(right)]
        if not colon or not inputs:
            continue
        for word in _NAME.findall(left):
            rules.setdefault(_plain(word), []).extend(inputs)
    return rules


def _split(line: bytes) -> tuple[bytes, bool, bytes]:
    """Return the text before the colon, whether there is one, and the text after it."""
    if line.lstrip().startswith(b"#"):
        return b"", False, b""
    found = re.search(rb"(?<!\\):(?=\s|$)", line)
    if found is None:
        return line, False, b""
    return line[: found.start()], True, line[found.end() :]
