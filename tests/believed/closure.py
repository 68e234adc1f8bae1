"""What is reached from contracts: definitions of specs, and types and constants of the code."""
from pathlib import Path

from believed.code import Code, Contract
from believed.imports import LIBRARIES, Imports
from believed.roots import Root, spoken_of
from believed.texts import Unread, words_of
from believed.tree import Tree

# words that nothing brings in: the libraries, and the types of the toolchain's prelude
PRELUDE = (*LIBRARIES, "Self", "Type", "Unit", "IsProp", "IsSet", "Dec", "Discrete", "Id", "Path")
RUST_PRELUDE = ("Box", "Option", "Result", "Self", "Send", "String", "Sync", "Vec")
# each file with its number of lines that are reached, and the names of what they define
Files = dict[str, tuple[int, list[str]]]


class Closure:
    """The definitions that are reached; from a type, by these members of its model. If it is
    strict, nothing is reached that isn't followed."""

    def __init__(self, tree: Tree, members: tuple[str, ...], strict: bool) -> None:
        self.tree, self.members, self.strict = tree, members, strict
        self.blocks: dict[Path, set[int]] = {}
        self.items: dict[Path, set[str]] = {}
        self.waiting: list[tuple[Path, int | str]] = []
        self.visited: set[tuple[str, ...]] = set()

    def reach_blocks(self, path: Path, blocks: set[int]) -> None:
        """Notes that blocks of a file of definitions are reached."""
        if blocks:
            new = blocks - self.blocks.setdefault(path, set())
            self.blocks[path] |= new
            self.waiting += [(path, block) for block in sorted(new)]

    def reach_item(self, path: Path, item: str) -> None:
        """Notes that an item of the code is reached."""
        if item not in self.items.setdefault(path, set()):
            self.items[path].add(item)
            self.waiting.append((path, item))

    def visit(self, words: list[str]) -> None:
        """Reaches what a path means, from the library on."""
        if len(words) < 4 or words[0] != "Rattle" or not self.tree.is_crate(words[1]):
            return
        if tuple(words) in self.visited:
            return
        self.visited.add(tuple(words))
        if words[2:4] == ["specs", "declared"]:
            self.visit_code(words[1], words[4:])
        elif words[2:4] == ["specs", "contracts"] or words[2] != "specs":
            # the toolchain makes these of contracts; proofs define nothing that is believed
            if self.strict:
                raise Unread(f"{'.'.join(words)} is reached, and isn't followed")
        elif not self.visit_specs(words):
            raise Unread(f"crates/{words[1]}/specs: no definition of {'.'.join(words[3:])}")

    def visit_specs(self, words: list[str]) -> bool:
        """Reaches what a path into the definitions of a crate means, if that is there; it may end
        with a module, which isn't one."""
        folder, found = self.tree.crates / words[1] / "specs", False
        for at in range(3, len(words)):
            path = self.tree.file_of(folder, words[3:at], ".antt", "Lib")
            if path:
                found = self.visit_name(path, words, at) or found
        return found or self.tree.file_of(folder, words[3:], ".antt", "Lib") is not None

    def visit_name(self, path: Path, words: list[str], at: int) -> bool:
        """Reaches what a file defines or passes on under the name at this place of a path."""
        specs = self.tree.specs_at(path)
        self.reach_blocks(path, specs.owners.get(words[at], set()))
        means = [[*meaning, *words[at + 1 :]] for meaning in specs.imports.paths_of(words[at])]
        # a module below is found by its file
        others = [mean for mean in means if mean != words]
        for mean in others:
            self.visit(mean)
        return words[at] in specs.owners or bool(others)

    def visit_code(self, crate: str, words: list[str]) -> None:
        """Reaches a type or a constant of the code: modules, and then the type, or TheConstants."""
        names = [word for word in words if word[0].isupper()]
        modules = words[: words.index(names[0])] if names else words
        source = self.tree.crates / crate / "src"
        path = self.tree.file_of(source, modules, ".rt", "mod" if modules else "lib")
        item = "".join(names[1:2] if names[:1] == ["TheConstants"] else names[:1])
        if path is None or item and item not in self.tree.code_at(path).items:
            raise Unread(f"crates/{crate}/src: no {item or 'file'} of {'.'.join(words)}")
        if item:
            self.reach_item(path, item)

    def follow_specs(self, path: Path, block: int) -> None:
        """Reaches what a block of definitions names."""
        specs = self.tree.specs_at(path)
        for words in words_of(specs.blocks[block].text):
            owners = specs.owners_of(words[0])
            self.reach_blocks(path, owners)
            self.follow_word(words, specs.imports, bool(owners))

    def follow_clauses(self, text: str, code: Code) -> None:
        """Reaches what clauses and models name, by definitions and by types of the code."""
        for words in words_of(text):
            is_known = words[0] in code.items or words[0] in code.brought
            self.follow_path(code, words[:1])
            self.follow_word(words, code.imports, is_known)

    def follow_word(self, words: list[str], imports: Imports, is_known: bool) -> None:
        """Reaches each definition that a word may mean by the imports, or by its whole path. A word
        with a capital is a type's, and something has to tell what it means."""
        is_type = len(words[0]) > 1 and words[0][0].isupper() and words[0] not in PRELUDE
        if self.strict and is_type and not is_known and words[0] not in imports.meanings:
            raise Unread(f"{words[0]} is reached, and nothing tells what it means")
        whole = words[1:] if words[0] == "package" else words
        for path in [whole, *([*path, *words[1:]] for path in imports.paths_of(words[0]))]:
            self.visit(path)

    def follow_path(self, code: Code, words: list[str]) -> None:
        """Reaches the types and constants that a path of Rust means, from this file."""
        for path, item in self.tree.meant(code, words):
            self.reach_item(path, item)

    def follow_contract(self, code: Code, contract: Contract, whole: bool) -> None:
        """Reaches what the clauses name, and the types of the signature that they speak of: whole,
        or by their values alone if they have a model."""
        self.follow_clauses(contract.clauses, code)
        for words in spoken_of(contract):
            self.follow_type(code, words, whole)

    def follow_type(self, code: Code, words: list[str], whole: bool) -> None:
        """Reaches a type, or what its values are if it has a model and isn't reached whole."""
        self.refuse_unknown(code, words)
        for path, item in sorted(self.tree.meant(code, words)):
            if whole or not self.has_value(path, item):
                self.reach_item(path, item)

    def refuse_unknown(self, code: Code, words: list[str]) -> None:
        """Refuses a type of the code of which nothing tells what it is, as one that a macro makes."""
        is_type = len(words) == 1 and len(words[0]) > 1 and words[0][0].isupper()
        is_known = words[0] in RUST_PRELUDE or words[0] in code.items or words[0] in code.brought
        if self.strict and is_type and not is_known and "*" not in code.brought:
            raise Unread(f"{words[0]} is reached, and nothing tells what it means")

    def has_value(self, path: Path, name: str) -> bool:
        """Whether a type of this file has a model; if so, what its values are is reached."""
        codes = self.tree.codes_of(self.tree.code_at(path).crate)
        models = [(code.model_of(name, ("Value",)), code) for code in codes]
        for model, code in models:
            self.follow_clauses(model, code)
        return any(model for model, _ in models)

    def follow_item(self, path: Path, name: str) -> None:
        """Reaches the types that an item of the code is made of, and what its model names, or the
        contracts of a trait's methods and its other members."""
        code = self.tree.code_at(path)
        for words in code.types_of(name):
            self.follow_type(code, words, whole=True)
        self.follow_clauses(code.clauses_of(name), code)
        self.follow_models(code.crate, name)

    def follow_models(self, crate: str, name: str) -> None:
        """Reaches what the model of a type names, in whichever file of the crate it is."""
        for code in self.tree.codes_of(crate):
            self.follow_clauses(code.model_of(name, self.members), code)

    def run(self, roots: list[Root], whole: bool = True) -> "Closure":
        """Reaches what the contracts of these functions rest on."""
        for crate, function in roots:
            self.follow_contract(*self.tree.contract_of(crate, function), whole)
        return self.close()

    def say(self) -> "Closure":
        """Reaches what the public contracts and the values of types name."""
        for code in self.tree.all_codes():
            texts = [contract.clauses for contract in code.contracts if contract.is_public]
            texts += [code.model_of(name, self.members) for name, _ in code.modelled()]
            self.follow_clauses("\n".join(texts), code)
        return self.close()

    def close(self) -> "Closure":
        """Reaches what is reached from what has been reached."""
        while self.waiting:
            path, reached = self.waiting.pop()
            if isinstance(reached, int):
                self.follow_specs(path, reached)
            else:
                self.follow_item(path, reached)
        return self

    def files(self) -> Files:
        """Each file with its number of lines that are reached, and what they define."""
        specs = [(path, self.tree.specs_at(path), found) for path, found in self.blocks.items()]
        codes = [(path, self.tree.code_at(path), found) for path, found in self.items.items()]
        counted = [
            *[(path, file.count_of(found), file.names_of(found)) for path, file, found in specs],
            *[(path, sum(map(file.count_of, found)), sorted(found)) for path, file, found in codes],
        ]
        return {self.tree.name_of(path): (count, names) for path, count, names in sorted(counted)}
