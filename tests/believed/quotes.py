"""The contracts that a page quotes, beside those of the code."""
import re
from collections.abc import Iterator
from itertools import chain

from believed.code import PUB, Code

QUOTE = re.compile(r"^```rust\n(.*?)^```", re.M | re.S)
FENCE = re.compile(r"^\s*(?:```|~~~)(.*)$", re.M)
CLAUSE = re.compile(r"\s*((?:ensures|requires)\*?(?: \w+)?) \{")
FUNCTION = re.compile(rf'^[ \t]*{PUB}(?:(?:const|unsafe|extern\s+"[^"]*")\s+)*fn\s+(\w+)', re.M)
# a text of the code, a comment, a word or a sign
TOKEN = re.compile(r'("(?:\\.|[^"\\])*")|(//[^\n]*)|([\w\']+|[^\w\s])')


def clauses_in(lines: list[str]) -> dict[str, list[str]]:
    """The signature of a contract, and then each clause with its comment, by its first words."""
    parts: dict[str, list[str]] = {"": []}
    here, comment = parts[""], list[str]()
    for line in lines:
        head = CLAUSE.match(line)
        if head:
            here = parts.setdefault(head[1], [])
            here += comment
        if head or not line.lstrip().startswith("//") and line.strip():
            here.append(line)
            comment = []
        else:
            comment.append(line)
    return parts


def name_of(quote: str) -> str | None:
    """The function whose contract is quoted."""
    found = FUNCTION.search(quote)
    return found[1] if found else None


def contracts_named(name: str, code: Code) -> Iterator[list[str]]:
    """The lines of each contract of a public function of this name, from the code as it is."""
    for found in FUNCTION.finditer(code.original):
        # what is blank in the other text is in a comment
        if found[1] == name and code.text[found.start(1) : found.end(1)] == name:
            end = code.end_of_contract(name, found.end())
            lines = code.original[found.start() : end].rstrip().split("\n")
            indent = len(lines[0]) - len(lines[0].lstrip())
            yield [line[indent:] for line in lines]


def chosen(lines: list[str], quote: str) -> str | None:
    """The clauses of a contract that a quote has, if it is one of this contract: all that are
    required are among them."""
    parts = clauses_in(lines)
    heads = list(clauses_in(quote.split("\n")))[1:]
    required = [head for head in parts if head.startswith("requires")]
    if not all(head in parts for head in heads):
        return None
    kept = [head for head in parts if head in heads or head in required]
    return "\n".join(parts[""] + [line for head in kept for line in parts[head]]) + "\n"


def tokens_of(text: str) -> list[str]:
    """What a contract is made of, however it is laid out, without its comments."""
    return [text or sign for text, comment, sign in TOKEN.findall(text) if not comment]


def is_same(code: str, quote: str) -> bool:
    """Whether two contracts differ in their layout and comments alone; a comma may end a list."""
    alike = [re.sub(r", ([)>])", r"\1", " ".join(tokens_of(text))) for text in (code, quote)]
    return alike[0] == alike[1]


def quoted(quote: str, codes: list[Code]) -> str | None:
    """What the code has in place of a quoted contract, if it has each of its clauses: the same, if
    there is such a one, else the first of a function of this name."""
    name = name_of(quote) or ""
    contracts = chain.from_iterable(contracts_named(name, code) for code in codes)
    found = [chosen(lines, quote) for lines in contracts]
    there = [code for code in found if code is not None]
    same = [code for code in there if is_same(code, quote)]
    return next(iter(same or there), None)


def misquoted(page: str, codes: list[Code]) -> Iterator[str]:
    """Contracts of the page that the code hasn't, however they are laid out."""
    for quote in QUOTE.findall(page):
        code = quoted(quote, codes)
        if code is None:
            yield f"{quote.split('(')[0].strip()}: no such contract"
        elif not is_same(code, quote):
            yield f"{quote.split('(')[0].strip()}: the code has other clauses"


def not_compared(page: str) -> Iterator[str]:
    """Quotes of the page that are in no language, or in another one than Rust."""
    for fence in FENCE.findall(QUOTE.sub("", page)):
        yield f"a quote that isn't of Rust isn't compared: {fence or 'no language'}"


def mended_quotes(page: str, codes: list[Code]) -> str:
    """The page with the contracts as the code has them."""
    return QUOTE.sub(lambda found: f"```rust\n{quoted(found[1], codes) or found[1]}```", page)
