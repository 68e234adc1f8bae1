"""A file of definitions: its blocks, and what each of them defines."""
import re
from collections import defaultdict
from dataclasses import dataclass, field
from pathlib import Path

from believed.imports import imports_of_specs
from believed.texts import NAME, Unread, blanked_specs, spoken

MARKS = ("pattern", "unfoldable", "abbrev", "axiom", "pub")
FIXITY = ("infix", "infixl", "infixr")
# these would have names of their own, and no definition has needed them so far
REFUSED = ("module", "mutual", "ruleset", "open", "deriving", "use", "mod", "syntax")
TOP_WORD = re.compile(rf"{NAME}|[(){{}}]")
CONSTRUCTORS = re.compile(rf"(?<!\S)((?:{NAME}[ \t]+)+):(?=\s)")


@dataclass
class Statement:
    """A signature, a clause, or a declaration of a type: its lines, and those of the sections that
    it stands in."""

    lines: list[int]
    text: str
    sections: str
    follows_blank: bool
    names: list[str] = field(default_factory=list)

    def read(self) -> None:
        """Finds which names it declares."""
        words = self.text.split()
        while words and words[0] in MARKS:
            words.pop(0)
        if not words or words[0] in REFUSED or re.search(r"(?<!\S)deriving(?!\S)|[«»]", self.text):
            raise Unread(f"a definition can't be read: {self.text.strip()}")
        if words[0] in ("data", "record") and len(words) > 1:
            self.names = [words[1]] + (constructors_of(self.text) if words[0] == "data" else [])
        elif words[0] in FIXITY:
            self.names = words[2:]
        elif words[0] != "unfolding":
            self.names = self.declared()

    def declared(self) -> list[str]:
        """The names before the colon of a signature; none before the sign of a clause."""
        names: list[str] = []
        depth = 0
        for word in TOP_WORD.findall(self.text):
            if word in "(){}":
                depth += 1 if word in "({" else -1
            elif depth == 0 and word == "=":
                return []
            elif depth == 0 and word == ":":
                return names
            elif depth == 0 and word not in MARKS:
                names.append(word)
        raise Unread(f"a definition can't be read: {self.text.strip()}")


def constructors_of(text: str) -> list[str]:
    """The names of a data's constructors."""
    rest = re.split(r"(?<!\S)where(?!\S)", text, maxsplit=1)[1:]
    return [name for names in CONSTRUCTORS.findall("".join(rest)) for name in names.split()]


@dataclass
class Section:
    """A `module _ (parameters) where`, and how far to the right it and its body begin."""

    left: int
    text: str
    body: int | None = None


class Layout:
    """The statements of a text without comments and imports, by how its lines are indented."""

    def __init__(self, lines: list[str], originals: list[str]) -> None:
        self.statements: list[Statement] = []
        self.sections: list[Section] = []
        self.follows_blank = True
        for at, line in enumerate(lines):
            if line.strip():
                self.add(at, line)
            elif not originals[at].strip():
                self.follows_blank = True

    def is_open(self) -> bool:
        """Whether a bracket of the latest statement isn't closed yet."""
        text = self.statements[-1].text if self.statements else ""
        return len(re.findall(r"[({]", text)) > len(re.findall(r"[)}]", text))

    def add(self, at: int, line: str) -> None:
        """Adds a line to the statement or the section that it belongs to."""
        if self.is_open():
            self.go_on(at, line)
            return
        left = len(line) - len(line.lstrip())
        while self.sections and left <= self.sections[-1].left:
            self.sections.pop()
        section = self.sections[-1] if self.sections else Section(-1, "where", 0)
        if not re.search(r"(?<!\S)where\s*$", section.text):
            section.text += "\n" + line
        elif section.body is None:
            section.body = left
            self.begin(at, line, left)
        elif left == section.body:
            self.begin(at, line, left)
        elif left > section.body and self.statements:
            self.go_on(at, line)
        else:
            raise Unread(f"line {at + 1} is laid out as no other: {line.strip()}")

    def go_on(self, at: int, line: str) -> None:
        """Adds a line to the latest statement."""
        self.statements[-1].lines.append(at)
        self.statements[-1].text += "\n" + line
        self.follows_blank = False

    def begin(self, at: int, line: str, left: int) -> None:
        """Begins a section or a statement."""
        if re.match(r"\s*module _(?!\S)", line):
            self.sections.append(Section(left, line))
            return
        sections = "\n".join(section.text for section in self.sections)
        self.statements.append(Statement([at], line, sections, self.follows_blank))
        self.follows_blank = False


@dataclass
class Block:
    """Lines of definitions without an empty line between, and clauses apart from them."""

    count: int = 0
    text: str = ""
    names: set[str] = field(default_factory=set)


class Specs:
    """A file of definitions: its blocks, which of them define a name, and what its imports mean."""

    def __init__(self, path: Path, module: str) -> None:
        original = path.read_text()
        self.module = module
        self.imports, text = imports_of_specs(blanked_specs(original), module)
        self.blocks: list[Block] = []
        self.owners: dict[str, set[int]] = defaultdict(set)
        self.spoken: dict[str, set[str]] = defaultdict(set)
        for statement in Layout(text.split("\n"), original.split("\n")).statements:
            statement.read()
            self.add(statement)

    def add(self, statement: Statement) -> None:
        """Adds a statement to its block; a clause is of the block before it."""
        at = len(self.blocks) - 1
        if not self.blocks or statement.follows_blank and statement.names:
            self.blocks.append(Block())
            at += 1
        block = self.blocks[at]
        block.count += len(statement.lines)
        block.text += f"{statement.sections}\n{statement.text}\n"
        block.names.update(statement.names)
        for name in statement.names:
            self.own(name, at)

    def own(self, name: str, at: int) -> None:
        """Notes that a block defines a name."""
        self.owners[name].add(at)
        for word in spoken(name):
            self.spoken[word].add(name)

    def owners_of(self, word: str) -> set[int]:
        """The blocks that define what a word means."""
        names = self.spoken.get(word, set())
        return {block for name in names for block in self.owners[name]}

    def count_of(self, blocks: set[int]) -> int:
        """The number of lines of these blocks."""
        return sum(self.blocks[block].count for block in blocks)

    def names_of(self, reached: set[int]) -> list[str]:
        """What these blocks define."""
        return sorted({name for at in reached for name in self.blocks[at].names})
