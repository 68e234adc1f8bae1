"""The files of the crates, and what names mean that code takes from other files."""
from pathlib import Path

from believed.code import Code, Contract
from believed.specs import Specs
from believed.texts import Unread

# a file of code, and an item of it
Item = tuple[Path, str]


class Tree:
    """The files of the crates, each read once."""

    def __init__(self, crates: Path) -> None:
        self.crates = crates
        self.specs: dict[Path, Specs] = {}
        self.codes: dict[Path, Code] = {}

    def name_of(self, path: Path) -> str:
        """The path of a file from `crates` on."""
        return str(path.relative_to(self.crates))

    def specs_at(self, path: Path) -> Specs:
        """The definitions of a file."""
        if path not in self.specs:
            crate, _, *words = path.relative_to(self.crates).with_suffix("").parts
            module = ".".join(["Rattle", crate, "specs", *[w for w in words if w != "Lib"]])
            try:
                self.specs[path] = Specs(path, module)
            except Unread as unread:
                raise Unread(f"crates/{self.name_of(path)}: {unread}") from unread
        return self.specs[path]

    def code_at(self, path: Path) -> Code:
        """The code of a file."""
        if path not in self.codes:
            try:
                self.codes[path] = Code(path, path.relative_to(self.crates).parts[0])
            except Unread as unread:
                raise Unread(f"crates/{self.name_of(path)}: {unread}") from unread
        return self.codes[path]

    def codes_of(self, crate: str) -> list[Code]:
        """All files of a crate's code."""
        return [self.code_at(path) for path in sorted((self.crates / crate / "src").rglob("*.rt"))]

    def all_codes(self) -> list[Code]:
        """All files of code."""
        return [self.code_at(path) for path in sorted(self.crates.glob("*/src/**/*.rt"))]

    def is_crate(self, name: str) -> bool:
        """Whether a crate of the repository has this name."""
        return (self.crates / name).is_dir()

    def contract_of(self, crate: str, function: str) -> tuple[Code, Contract]:
        """A public function's contract, with the file that it is in."""
        found = [
            (code, contract)
            for code in self.codes_of(crate)
            for contract in code.contracts
            if contract.name == function
        ]
        if len(found) != 1:
            many = "several functions" if found else "no function"
            raise Unread(f"crates/{crate}: {many} {function}")
        if not found[0][1].clauses:
            raise Unread(f"crates/{crate}: {function} has no contract")
        return found[0]

    def file_of(self, folder: Path, words: list[str], suffix: str, root: str) -> Path | None:
        """The file of a module."""
        path = folder.joinpath(*words)
        for file in (path.parent / (path.name + suffix), path / (root + suffix)):
            if file.is_file() and (words or file.stem == root):
                return file
        return None

    def meant(self, code: Code, words: list[str], seen: frozenset[Item] = frozenset()) -> set[Item]:
        """The items of the code that a path of Rust means, from this file."""
        if len(words) == 1 and words[0] in code.items:
            return {(code.path, words[0])}
        wholes = [whole + words[1:] for whole in code.brought.get(words[0], ())]
        if len(words) > 1 and not wholes:
            wholes = [words]
        found: set[Item] = set()
        for whole in wholes:
            found |= self.meant_in(self.crate_of(code, whole), whole, seen, code)
        return found or self.meant_by_all(code, words)

    def meant_by_all(self, code: Code, words: list[str]) -> set[Item]:
        """The items that a path means if `*` brings its first name in."""
        crates = [self.crate_of(code, whole) for whole in code.brought.get("*", ())]
        codes = [other for crate in crates if crate for other in self.codes_of(crate)]
        return {(other.path, words[0]) for other in codes if words[0] in other.items}

    def crate_of(self, code: Code, whole: list[str]) -> str | None:
        """The crate of a path of Rust, if it is one of the repository."""
        if whole[0] in ("crate", "self", "super"):
            return code.crate
        if self.is_crate(whole[0]):
            return whole[0]
        source = self.crates / code.crate / "src"
        return code.crate if self.file_of(source, whole[:1], ".rt", "mod") else None

    def meant_in(
        self, crate: str | None, whole: list[str], seen: frozenset[Item], user: Code
    ) -> set[Item]:
        """The items of a crate that the path means, or what the crate passes on for it."""
        names = [word for word in whole if word[:1].isupper()]
        if crate is None or not names:
            return set()
        codes = self.codes_of(crate)
        found = {(code.path, names[0]) for code in codes if names[0] in code.items}
        passing = [code for code in codes if names[0] in code.brought and code is not user]
        for code in passing if not found else []:
            if (code.path, names[0]) not in seen:
                found |= self.meant(code, names[:1], seen | {(code.path, names[0])})
        if not found and not passing:
            raise Unread(
                f"crates/{self.name_of(user.path)}: nothing is found of {'::'.join(whole)}"
            )
        return found
