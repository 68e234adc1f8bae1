"""What is a comment, a quoted text or a name, in definitions (antt) and in code (Rattle)."""
import re
from collections.abc import Iterator


class Unread(Exception):
    """Something of the repository that can't be read, or a name whose definition isn't found."""


# a name of antt is any run of other characters than these
NAME = r"[^\s(){}.;,@\"«»]+"
PATH = rf"{NAME}(?:\s*\.\s*{NAME})*"
# blanks that antt may take for a part of a name, and signs that nobody sees
ODD = re.compile(r"[^\S \n]|[\u200b-\u200f\u202a-\u202e\u2060-\u2064\ufeff]")
COMMENT = re.compile(r"\{-|-\}|/\*|\*/")
SPECS_TOKEN = re.compile(rf'"(?:\\.|[^"\\\n])*"|(?<![^\s(){{}}.;,@"«»])--[^\n]*|\{{-')
CODE_TOKEN = re.compile(
    r'\bb?r(#*)".*?"\1|"(?:\\.|[^"\\])*"|(?<![\w\'])b?\'(?:\\[^\'\n]*|[^\'\\\n])\'|//[^\n]*|/\*',
    re.S,
)
BINDERS = re.compile(rf"([λ∀](?:\s*{NAME})+)\.")
WORD = re.compile(rf"{NAME}(?:\.{NAME})*")


def end_of_comment(text: str, start: int) -> int:
    """Where the comment ends that begins here with `{-` or `/*`, with the comments in it."""
    depth = 0
    for mark in COMMENT.finditer(text, start):
        if (mark.group()[0] in "{-") == (text[start] == "{"):
            depth += 1 if mark.group() in ("{-", "/*") else -1
        if depth == 0:
            return mark.end()
    raise Unread("a comment has no end")


def hidden(found: str) -> str:
    """Blanks in place of a comment, quotes in place of a quoted text; lines stay lines."""
    return re.sub(r"[^\n]", '"' if found[0] in "\"'br" else " ", found)


def blanked(text: str, token: re.Pattern[str]) -> str:
    """The text without its comments and what is quoted, each at its place as before."""
    parts, at = [], 0
    while found := token.search(text, at):
        end = end_of_comment(text, found.start()) if found.group() in ("{-", "/*") else found.end()
        parts += [text[at : found.start()], hidden(text[found.start() : end])]
        at = end
    return "".join(parts) + text[at:]


def blanked_specs(text: str) -> str:
    """A text of antt without comments and quoted texts."""
    if odd := ODD.search(text):
        raise Unread(f"a sign can't be read: {odd.group()!r}")
    return blanked(text, SPECS_TOKEN)


def blanked_code(text: str) -> str:
    """A text of code without comments and quoted texts."""
    return blanked(text, CODE_TOKEN)


def pieces_of(word: str) -> set[str]:
    """The names that a word may mean: itself, its parts as an operator, and what brackets and
    colons part in it."""
    return {word, *re.split(r"[\[\]:|]", word), *word.split("◌")} - {""}


def words_of(text: str) -> Iterator[list[str]]:
    """The words of a text without comments, each with what its dots part."""
    # the dot after binders parts nothing
    words = [word.split(".") for word in WORD.findall(BINDERS.sub(r"\1 ", text))]
    yield from ([piece, *rest] for first, *rest in words for piece in sorted(pieces_of(first)))


def spoken(name: str) -> set[str]:
    """The words by which a name is used: the whole name, and an operator's parts."""
    return {name, *name.split("◌")} - {""}


def end_of_brackets(text: str, start: int) -> int:
    """Where the bracket ends that begins here."""
    depth = 0
    for mark in re.finditer(r"[(){}\[\]]", text[start:]):
        depth += 1 if mark.group() in "({[" else -1
        if depth == 0:
            return start + mark.end()
    raise Unread("a bracket has no end")
