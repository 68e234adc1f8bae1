"""A file of code: its types and constants, the models of types, and the contracts of functions."""
import re
from collections import defaultdict
from collections.abc import Iterator
from dataclasses import dataclass
from itertools import chain
from pathlib import Path

from believed.imports import imports_of_code
from believed.texts import Unread, blanked_code, end_of_brackets

PUB = r"pub(?:\s*\([^)]*\))?\s+"
ITEM = re.compile(
    rf"(?:^|(?<=[;{{}}\]]))[ \t]*(?:{PUB})?(enum|struct|union|type|const|static|trait)\s+"
    r"(?!fn\b|unsafe\b|extern\b|mut\b)(\w+)",
    re.M,
)
FUNCTION = re.compile(r'\b(pub(?:\s*\([^)]*\))?)\s+(?:(?:const|unsafe|extern\s+"+)\s+)*fn\s+(\w+)')
CLAUSE = re.compile(r"\b(?:ensures|requires)\*?(?:\s+\w+)?\s*$")
TRAIT = re.compile(rf"[ \t]*(?:{PUB})?trait\b")
TRAIT_CLAUSE = re.compile(r"\b(?:ensures|requires|ghost)\b[^{};]*\{")
IMPLEMENTATION = re.compile(r"\b(?:impl|trait)\b(?:[^{};\[]|\[[^\]{}]*\])*\{")
MODEL = re.compile(r"\bModel\b(?:\s*<[^{}]*>)?\s+for\s+(?:\w+\s*::\s*)*(\w+)")
MEMBER = re.compile(r"\bghost\s+(\w+)\s*=\s*(?=\{)")
IMPORT = re.compile(r"\buse\s+(?!Rattle\b)([^;]*);")
RUST_PATH = re.compile(r"(?<![\w'])[A-Za-z_]\w*(?:\s*::\s*[A-Za-z_]\w*)*")


@dataclass
class Contract:
    """A public function's signature and clauses, without comments."""

    name: str
    is_public: bool
    signature: str
    clauses: str


def parts_of(text: str) -> Iterator[str]:
    """What commas part that stand in no braces."""
    depth, begin = 0, 0
    for mark in re.finditer(r"[{},]", text):
        depth += {"{": 1, "}": -1, ",": 0}[mark.group()]
        if mark.group() == "," and depth == 0:
            yield text[begin : mark.start()]
            begin = mark.end()
    yield text[begin:]


def expanded(tree: str) -> Iterator[tuple[str, list[str]]]:
    """Each name that an import of Rust brings in, and its path."""
    prefix, braces, inner = tree.strip().removeprefix("::").partition("{")
    if not braces:
        path, _, alias = re.sub(r"\s+as\s+", " as ", prefix).partition(" as ")
        words = [word.strip() for word in path.split("::")]
        yield alias.strip() or words[-1], words[:-1] if words[-1] == "self" else words
        return
    above = [word.strip() for word in prefix.split("::")[:-1]]
    parts = filter(str.strip, parts_of(inner.rpartition("}")[0]))
    for name, below in chain.from_iterable(map(expanded, parts)):
        # `self` alone in braces is the module above
        yield above[-1] if name == "self" else name, above + below


class Code:
    """A file of code."""

    def __init__(self, path: Path, crate: str) -> None:
        self.path, self.crate = path, crate
        self.original = path.read_text()
        self.text = blanked_code(self.original)
        self.imports = imports_of_code(self.text)
        # the paths that a name may mean by an import of Rust; and the texts of items, by name
        self.brought: dict[str, list[list[str]]] = defaultdict(list)
        self.items: dict[str, list[str]] = defaultdict(list)
        self.read_imports()
        self.read_items()
        self.contracts = list(self.read_contracts())

    def read_imports(self) -> None:
        """Finds what imports of Rust bring in."""
        if re.search(r"\bextern\s+crate\b", self.text):
            raise Unread("an extern crate can't be read")
        for name, words in chain.from_iterable(map(expanded, IMPORT.findall(self.text))):
            self.brought[name].append(words)

    def read_items(self) -> None:
        """Finds the items, but for those of an `impl` or a trait."""
        inner = list(self.implementations())
        for found in ITEM.finditer(self.text):
            if not any(begin < found.start(2) < end for begin, end in inner):
                self.items[found[2]].append(self.item(found))

    def implementations(self) -> Iterator[tuple[int, int]]:
        """Where the braces of each `impl` and each trait begin and end."""
        for found in IMPLEMENTATION.finditer(self.text):
            yield found.end(), end_of_brackets(self.text, found.end() - 1)

    def item(self, found: re.Match[str]) -> str:
        """The text of an item, from its line on to its end."""
        at = found.end()
        while mark := re.compile(r"[({\[;]").search(self.text, at):
            at = mark.end() if mark.group() == ";" else end_of_brackets(self.text, mark.start())
            is_body = mark.group() == "{" and found[1] not in ("const", "static", "type")
            if mark.group() == ";" or is_body:
                return self.text[found.start() : at]
        raise Unread(f"{found[2]} has no end")

    def count_of(self, name: str) -> int:
        """The number of lines of an item, without comments and attributes."""
        lines = "\n".join(self.items[name]).split("\n")
        return len([line for line in lines if line.strip() and not line.lstrip().startswith("#[")])

    def clauses_of(self, name: str) -> str:
        """The clauses and the other ghost members of the traits of this name."""
        traits = [item for item in self.items[name] if TRAIT.match(item)]
        return "\n".join(part for item in traits for part in clauses_in(item)[1])

    def types_of(self, name: str) -> Iterator[list[str]]:
        """The paths in an item that may be those of types, but for its variants' names, and for the
        clauses of a trait."""
        for item in self.items[name]:
            text = re.sub(r"#\[[^\]]*\]", " ", clauses_in(item)[0] if TRAIT.match(item) else item)
            yield from paths_of(without_variants(text) if re.search(r"\benum\b", text) else text)

    def modelled(self) -> Iterator[tuple[str, str]]:
        """Each type that has a model here, with the model's text."""
        for found in IMPLEMENTATION.finditer(self.text):
            if model := MODEL.search(found.group()):
                begin = found.end() - 1
                yield model[1], self.text[begin : end_of_brackets(self.text, begin)]

    def model_of(self, name: str, members: tuple[str, ...]) -> str:
        """The text of these members of a type's model."""
        texts = [text for modelled, text in self.modelled() if modelled == name]
        try:
            return "\n".join(part for text in texts for part in members_of(text, members))
        except Unread as unread:
            raise Unread(f"{self.path.name}: the model of {name} can't be read") from unread

    def read_contracts(self) -> Iterator[Contract]:
        """The contracts of the public functions."""
        for found in FUNCTION.finditer(self.text):
            end = self.end_of_contract(found[2], found.end())
            self.refuse_comments(found[2], found.end(), end)
            whole = self.text[found.end() : end]
            begin = re.search(r"\b(?:ensures|requires)\b", whole)
            at = begin.start() if begin else len(whole)
            yield Contract(found[2], found[1] == "pub", whole[:at], whole[at:])

    def refuse_comments(self, name: str, start: int, end: int) -> None:
        """Refuses comments beside a contract's words, which might be words to the prover."""
        originals = self.original[start:end].split("\n")
        for original, line in zip(originals, self.text[start:end].split("\n")):
            if line.strip() and len(line.rstrip()) != len(original.rstrip()):
                raise Unread(f"a comment is beside the contract of {name}")

    def end_of_contract(self, name: str, start: int) -> int:
        """Where the last clause of the function ends whose name ends here."""
        at, last = start, None
        while mark := re.compile(r"[({\[;]").search(self.text, at):
            if (
                mark.group() == ";"
                or mark.group() == "{"
                and not CLAUSE.search(self.text, at, mark.start())
            ):
                break
            at = end_of_brackets(self.text, mark.start())
            last = at if mark.group() == "{" else last
        else:
            raise Unread(f"the contract of {name} has no end")
        body = end_of_brackets(self.text, mark.start()) if mark.group() == "{" else mark.end()
        after = re.compile(r"\s*(?:ensures|requires)\b").match(self.text, body)
        if last and self.text[last : mark.start()].strip() or after:
            raise Unread(f"the contract of {name} can't be read")
        return mark.start()


def clauses_in(text: str) -> tuple[str, list[str]]:
    """The text of a trait without its clauses and its other ghost members, and each of these."""
    rest, at, clauses = "", 0, list[str]()
    while mark := TRAIT_CLAUSE.search(text, at):
        end = end_of_brackets(text, mark.end() - 1)
        rest, clauses = rest + text[at : mark.start()], [*clauses, text[mark.end() - 1 : end]]
        at = end
    return rest + text[at:], clauses


def members_of(text: str, members: tuple[str, ...]) -> list[str]:
    """The texts of these members of a model."""
    found = [(member[1], member.end()) for member in MEMBER.finditer(text)]
    if set(re.findall(r"\bghost\s+(\w+)", text)).intersection(members) - set(dict(found)):
        raise Unread("a member has another form")
    return [text[at : end_of_brackets(text, at)] for member, at in found if member in members]


def paths_of(text: str) -> Iterator[list[str]]:
    """The paths in a text of Rust."""
    for path in RUST_PATH.findall(text):
        yield re.split(r"\s*::\s*", path)


def without_variants(text: str) -> str:
    """The text of an enum without the names of its variants."""
    parts, depth, begin = [], 0, 0
    for mark in re.finditer(r"[(){}\[\],]", text):
        depth += {"(": 1, "{": 1, "[": 1, ",": 0}.get(mark.group(), -1)
        opens = mark.group() == "{" and depth == 1
        if opens or mark.group() == "," and depth == 1:
            parts.append(text[begin : mark.end()])
            name = re.compile(r"\s*\w*").match(text, mark.end())
            begin = name.end() if name else mark.end()
    return "".join(parts) + text[begin:]
