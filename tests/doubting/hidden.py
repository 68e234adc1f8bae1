"""How a definition is hidden in the small tree, and the complaint that the page doesn't list it."""
from doubting.small_tree import Case, with_rules

MODEL = "Rattle.redodb_model.specs"
NAT = "use Rattle.std.specs.Prelude.{ℕ}\n"
HIDDEN = NAT + "\nabbrev pub hidden : ℕ\nhidden = 2\n"
FOUND = "docs/BELIEVE.md: redodb_model/specs/Hidden.antt: {} lines, and the page doesn't have it"
LONGER = "docs/BELIEVE.md: redodb_model/specs/Rules.antt: {} lines, and the page has 2"
RIGHT = "abbrev pub Right : ℕ → Type 0\nRight n = n ≡ base × n ≡ {}"
UNREAD = "can't be read"


def through(name: str, uses: str, word: str, hidden: str = HIDDEN, count: int = 2) -> Case:
    """A definition of another file, by an import and a word for it."""
    return name, with_rules(uses, RIGHT.format(word), Hidden=hidden), FOUND.format(count)


def passed(name: str, passes: str, uses: str, word: str) -> Case:
    """One that a third file passes on."""
    files = with_rules(uses, RIGHT.format(word), Hidden=HIDDEN, Passed=passes)
    return name, files, FOUND.format(2)


def here(name: str, body: str, count: int) -> Case:
    """Definitions of the same file, after which it has this number of lines."""
    return name, with_rules("", body), LONGER.format(count)


def refused(name: str, uses: str, body: str, complaint: str = UNREAD) -> Case:
    """What can't be read, and so is refused."""
    return name, with_rules(uses, body, Hidden=HIDDEN), complaint


USE = f"use {MODEL}.Hidden.{{hidden}}"
LOCAL = "\n\nabbrev pub hidden : ℕ\nhidden = 2"
