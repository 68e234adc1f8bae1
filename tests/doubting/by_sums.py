"""What README says of the number of lines."""
from doubting.small_tree import BASES, BELIEVE, Case, Files

MISSING = "README.md: it doesn't say once how many lines have to be believed"


def readme(text: str) -> Files:
    """A README that says this of the page."""
    return {"README.md": f"# A tree of {text} [docs/BELIEVE.md](docs/BELIEVE.md) lists\n"}


def longer(count: int, said: str) -> Files:
    """A tree with this number of lines, of which README says something."""
    page = BELIEVE.replace("| 2 | The base", f"| {count - 2} | The base")
    for old in ("4 lines in 2", "4 lines in all"):
        page = page.replace(old, old.replace("4", str(count)))
    bases = BASES.rstrip("\n") + "\n  + 1" * (count - 4) + "\n"
    return {
        **readme(f"some {said} lines, which"),
        "docs/BELIEVE.md": page,
        "crates/redodb_model/specs/Bases.antt": bases,
    }


BY_SUMS: list[Case] = [
    (
        "README says less",
        readme("some 3 lines, which"),
        "README.md: it says some 3 lines, and 4 have to be believed",
    ),
    (
        "README says less than what is rounded down",
        longer(124, "119"),
        "README.md: it says some 119 lines, and 124 have to be believed",
    ),
    (
        "README rounds down what is rounded up",
        longer(125, "120"),
        "README.md: it says some 120 lines, and 125 have to be believed",
    ),
    ("README says nothing", {"README.md": "# A tree\n"}, MISSING),
    ("README says it otherwise", readme("4 lines or so, which"), MISSING),
    (
        "README says it twice",
        readme("some 4 lines, which [docs/BELIEVE.md] lists, some 4 lines, which"),
        MISSING,
    ),
]
SUMS: list[tuple[str, Files]] = [
    ("README rounds down", longer(124, "120")),
    ("README rounds up", longer(125, "130")),
    ("README says more", longer(124, "1,300")),
    ("README over two lines", readme("some\n4 lines,\nwhich")),
]
