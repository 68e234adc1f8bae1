"""Whether a program calls each root: in its `main`, or in a function that `main` calls."""
import re
from collections.abc import Iterator
from dataclasses import dataclass

from believed.code import Code
from believed.roots import Root
from believed.texts import Unread, end_of_brackets
from believed.tree import Tree

# a function, or what is gone over: what is in brackets belongs to another item
ITEM = re.compile(r"\bfn\s+(\w+)|[({\[]")
CLAUSE = re.compile(r"\b(?:ensures|requires)\b")
# a path and a bracket after it: no method, no macro, and no part of another path
CALL = re.compile(
    r"(?<![\w.:'])([A-Za-z_]\w*(?:\s*::\s*[A-Za-z_]\w*)*)\s*(?:::\s*<[^(){};]*>\s*)?\("
)
MACRO = re.compile(r"\b\w+!\s*(?=[({\[])")
# in a body: a function of its own, and what is left out of some programs
ODD = re.compile(r"\bfn\s+\w+|#!?\s*\[\s*cfg")
PARAMETER = r"[(,]\s*(?:mut\s+)?{}\s*:(?!:)"
# a call in its right side still means what is outside
VARIABLE = r"\blet\s+(?:mut\s+)?{}\b[^;]*;"


@dataclass
class Function:
    """A function of a program: what is before its braces, and these without macros."""

    name: str
    signature: str
    body: str

    def calls(self) -> Iterator[list[str]]:
        """The paths that are called, but for variables of the function."""
        for found in CALL.finditer(self.body):
            words = re.split(r"\s*::\s*", found[1])
            if len(words) > 1 or not self.is_variable(words[0], found.start()):
                yield words

    def is_variable(self, name: str, at: int) -> bool:
        """Whether a parameter, or a `let` before this place of the body, has this name."""
        is_parameter = re.search(PARAMETER.format(name), self.signature) is not None
        return is_parameter or re.search(VARIABLE.format(name), self.body[:at]) is not None


def without_macros(text: str) -> str:
    """The text without what stands in the brackets of macros, which may do anything with it."""
    parts, at = [], 0
    while found := MACRO.search(text, at):
        parts.append(text[at : found.end()])
        at = end_of_brackets(text, found.end())
    return "".join(parts) + text[at:]


def functions_of(code: Code) -> Iterator[Function]:
    """The functions of a file that are in no other item."""
    at = 0
    while found := ITEM.search(code.text, at):
        if found[1] is None:
            at = end_of_brackets(code.text, found.start())
            continue
        begin = code.end_of_contract(found[1], found.end())
        at = end_of_brackets(code.text, begin)
        body = without_macros(code.text[begin:at])
        yield Function(found[1], code.text[found.end() : begin], body)


class Program:
    """A file with a `main`."""

    def __init__(self, code: Code) -> None:
        self.code = code
        self.functions: dict[str, Function] = {}
        for function in functions_of(code):
            if function.name in self.functions:
                raise Unread(f"several functions {function.name}")
            self.functions[function.name] = function
        if "main" not in self.functions:
            raise Unread("no function main")

    def near_main(self) -> Iterator[Function]:
        """`main`, and the private functions without a contract that it calls."""
        main = self.functions["main"]
        called = {words[-1] for words in main.calls() if words[:-1] in ([], ["crate"], ["self"])}
        public = {contract.name for contract in self.code.contracts}
        yield main
        for name in sorted(called & self.functions.keys() - public):
            if not CLAUSE.search(self.functions[name].signature):
                yield self.functions[name]

    def is_root(self, words: list[str], root: Root) -> bool:
        """Whether a path means the root, by whichever of the imports brings it in."""
        if len(words) == 1 and words[0] in self.functions:
            return False
        wholes = [whole + words[1:] for whole in self.code.brought.get(words[0], [[words[0]]])]
        return all(len(whole) > 1 and (whole[0], whole[-1]) == root for whole in wholes)

    def called(self, roots: list[Root]) -> Iterator[Root]:
        """The roots that are called in `main` or near it."""
        for function in self.near_main():
            if odd := ODD.search(function.body):
                raise Unread(f"{odd.group()} in {function.name} can't be read")
            paths = list(function.calls())
            yield from (root for root in roots if any(self.is_root(path, root) for path in paths))


def called_in(tree: Tree, code: Code, roots: list[Root]) -> list[Root]:
    """The roots that a program calls."""
    try:
        return list(Program(code).called(roots))
    except Unread as unread:
        raise Unread(f"crates/{tree.name_of(code.path)}: {unread}") from unread


def refuse_others(tree: Tree, root: Root) -> None:
    """Refuses a crate that may pass on another crate's function under the root's name."""
    crate, name = root
    for code in tree.codes_of(crate):
        if any(tree.crate_of(code, whole) != crate for whole in code.brought.get(name, ())):
            raise Unread(f"crates/{tree.name_of(code.path)}: {name} is of another crate, too")


def uncalled(tree: Tree, roots: list[Root]) -> Iterator[str]:
    """The complaint about each root that no program calls."""
    programs = [tree.code_at(path) for path in sorted(tree.crates.glob("*/src/main.rt"))]
    called = {root for code in programs for root in called_in(tree, code, roots)}
    for root in roots:
        refuse_others(tree, root)
        if root not in called:
            yield f"no program calls {root[1]} of {root[0]} in main, or right below it"
