"""Which side of specs/Support the definitions of all crates are on."""
from collections.abc import Iterator
from pathlib import Path

from believed.closure import Closure

# this folder of specs has what need not be believed; what no public contract names is nowhere else
SUPPORT = "Support"
# these have to be believed, and stand there: to move them is to prove each crate above them anew
BELIEVED_SUPPORT = {
    "redodb_history/specs/Support/HistoryTexts.antt": {"IsLineSaid", "IsSaid"},
    "redodb_model/specs/Support/State.antt": {"is_idle"},
    "redodb_model/specs/Support/Unknown.antt": {"IsUnknown"},
    "redodb_names/specs/Support/Names.antt": {"AreNames"},
}


def misplaced(closure: Closure, said: Closure) -> Iterator[str]:
    """What must be believed and is there, and what is elsewhere though no contract names it."""
    for path in sorted(closure.tree.crates.glob("*/specs/**/*.antt")):
        name = path.relative_to(closure.tree.crates)
        specs = closure.tree.specs_at(path)
        if name.parts[2] == SUPPORT:
            if path in closure.blocks:
                yield from supporting(name, specs.names_of(closure.blocks[path]))
        elif path.stem not in ("Lib", SUPPORT):
            yield from unnamed(name, specs.names_of(blocks_besides(said, path)))


def supporting(name: Path, names: list[str]) -> Iterator[str]:
    """The complaint about definitions that are reached there, if they aren't known to be there."""
    unknown = [each for each in names if each not in BELIEVED_SUPPORT.get(str(name), ())]
    if unknown:
        yield f"{name}: is reached: {' '.join(unknown)}"


def blocks_besides(said: Closure, path: Path) -> set[int]:
    """The blocks of a file that aren't reached."""
    return set(range(len(said.tree.specs_at(path).blocks))) - said.blocks.get(path, set())


def unnamed(name: Path, names: list[str]) -> Iterator[str]:
    """The complaint about definitions of a file that no contract names, if there are any."""
    if names:
        yield f"{name}: no public contract names it, and it belongs in {SUPPORT}: {' '.join(names)}"
