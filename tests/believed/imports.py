"""What the imports of a file bring in: modules, and names of modules."""
import re
from collections import defaultdict

from believed.texts import NAME, PATH, Unread, spoken

USE = re.compile(
    rf"^[ \t]*(?:(?:ghost|unfoldable|pub)\s+)*use\s+(?P<path>{PATH})"
    rf"(?:\s*\.\s*\{{(?P<names>[^{{}}]*)\}}|\s+as\s+(?P<alias>{NAME}))?\s*?(?:;|$)",
    re.M,
)
LEFT = re.compile(r"^.*(?<![^\s(){};])(?:use|open)(?![^\s(){};.]).*$", re.M)
GHOST = re.compile(r"\bghost\s+(?:pub\s+)?use\b[^;]*;?")
CHILD = re.compile(r"^(?:pub\s+)?mod\s+(\S+)[ \t]*$", re.M)
# the first has the crates, and the kit's; the others are the toolchain's
LIBRARIES = ("Rattle", "Prim", "lib", "mathlib", "mir")
# a module and a name in it, or a module alone
Meaning = tuple[str, str | None]


class Imports:
    """What each word of a file means that it imports, in whichever scope: there may be several."""

    def __init__(self) -> None:
        self.meanings: dict[str, set[Meaning]] = defaultdict(set)

    def modules(self, head: str) -> list[str]:
        """The modules that the first word of a path names."""
        if head in LIBRARIES:
            return [head]
        return sorted(module for module, name in self.meanings.get(head, ()) if name is None)

    def paths_of(self, word: str) -> list[list[str]]:
        """What a word means, each as a path from the library on."""
        means = sorted(self.meanings.get(word, ()), key=str)
        return [[*module.split("."), *([name] if name else [])] for module, name in means]

    def whole_of(self, path: str) -> list[str]:
        """The modules that a path means, each from the library on."""
        words = [word for word in re.split(r"\s*\.\s*", path) if word != "package"]
        whole = [".".join([head, *words[1:]]) for head in self.modules(words[0])]
        if not whole or "*" in words[-1:]:
            raise Unread(f"an import can't be read: {path}")
        return whole

    def add_names(self, module: str, names: str) -> None:
        """Adds what stands in the braces of an import."""
        for item in filter(None, map(str.strip, names.split(","))):
            words = item.split()
            if len(words) not in (1, 3) or words[1:2] not in ([], ["as"]):
                raise Unread(f"an import can't be read: {item}")
            *inner, name = words[0].split(".")
            self.mean(words[-1].split(".")[-1], (".".join([module, *inner]), name))

    def add_children(self, children: list[str], module: str) -> None:
        """Adds the modules below this one, by their names."""
        for child in children:
            self.mean(child, (f"{module}.{child}", None))

    def add(self, found: re.Match[str]) -> None:
        """Adds an import, in whichever of its forms."""
        for module in self.whole_of(found["path"]):
            if found["names"] is not None:
                self.add_names(module, found["names"])
            else:
                self.mean(found["alias"] or module.split(".")[-1], (module, None))

    def mean(self, name: str, meaning: Meaning) -> None:
        """Notes one of the meanings of a name."""
        for word in spoken(name):
            self.meanings[word].add(meaning)


def imports_of_specs(text: str, module: str) -> tuple[Imports, str]:
    """The imports of a file of definitions, by its text without comments, and the text without
    them."""
    imports = Imports()
    imports.add_children(CHILD.findall(text), module)
    for found in USE.finditer(text):
        imports.add(found)
    rest = CHILD.sub(blank, USE.sub(blank, text))
    if left := LEFT.search(rest):
        raise Unread(f"an import can't be read: {left.group().strip()}")
    return imports, rest


def blank(found: re.Match[str]) -> str:
    """Blanks in place of what was found."""
    return re.sub(r"[^\n]", " ", found.group())


def imports_of_code(text: str) -> Imports:
    """The ghost imports of code, by its text without comments."""
    imports = Imports()
    for line in GHOST.findall(text):
        found = USE.fullmatch(line)
        if not found:
            raise Unread(f"an import can't be read: {line.strip()}")
        imports.add(found)
    return imports
