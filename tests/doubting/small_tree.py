"""A small tree of the roots and `run`, in which all is listed, for tests/believe to check: each of
the roots takes and gives a byte, and one program calls them all."""
import compileall
import shutil
import subprocess
from dataclasses import dataclass
from pathlib import Path

from believed.roots import ROOTS

TESTS = Path(__file__).resolve().parent.parent
# each file of the tree; None is one that is taken away
Files = dict[str, str | None]
# what is wrong, the files that differ, and the complaint
Case = tuple[str, Files, str]

PRELUDE = "ghost use Rattle.std.specs.Prelude.{◌≡◌};\n"
SAME = "\npub fn {0}(word: u8) -> u8\n    ensures same {{ result ≡ word }}\n{{\n    word\n}}\n"
RUN_TEXTS = """pub fn run_texts(word: u8) -> u8
    // A byte is right.
    ensures right { Right result }
"""
SESSION = (
    "ghost use Rattle.redodb_model.specs.Rules.{Right};\n\n"
    + RUN_TEXTS
    + "{\n    word\n}\n"
    + SAME.format("run")
)
RULES_USES = """-- What is right.
use Rattle.std.specs.Prelude.{ℕ, ◌≡◌, codes}
use Rattle.redodb_model.specs.Bases.{base}
"""
RULES = RULES_USES + "\nabbrev pub Right : ℕ → Type 0\nRight n = n ≡ base\n"
BASES = "use Rattle.std.specs.Prelude.{ℕ}\n\nabbrev pub base : ℕ\nbase = 1\n"
NAMED = ", ".join(f"`{function}` of `{crate}`" for crate, function in ROOTS)
BELIEVE = f"""# What has to be believed

{NAMED}: 4 lines in all.

| File of `crates` | Lines | What it says |
|---|---|---|
| `redodb_model/specs/Bases.antt` | 2 | The base. |
| `redodb_model/specs/Rules.antt` | 2 | What is right. |

4 lines in 2 files.

## What sessions had seen

| File of `crates` | Lines | What it says |
|---|---|---|

0 lines in 0 files.
"""
PROGRAM = (
    "".join(f"use {crate}::{function};\n" for crate, function in ROOTS)
    + "\nfn main(rt: HostRuntime) {\n"
    + "".join(f"    {function}(0);\n" for _, function in ROOTS)
    + "}\n"
)


def libraries() -> Files:
    """The crates of the roots."""
    texts: dict[str, str] = {}
    for crate, function in ROOTS:
        path = f"crates/{crate}/src/lib.rt"
        texts[path] = texts.get(path, PRELUDE) + SAME.format(function)
    return {**texts, "crates/redodb_run/src/lib.rt": SESSION}


SMALL: Files = {
    "README.md": "# A tree of some 4 lines, which [docs/BELIEVE.md](docs/BELIEVE.md) lists\n",
    "bench/README.md": "# Nothing\n",
    "tests/README.md": "# Nothing\n",
    "docs/BELIEVE.md": BELIEVE,
    "docs/PROMISES.md": f"# Promises\n\n```rust\n{RUN_TEXTS}```\n",
    "crates/redodb_model/src/lib.rt": "",
    "crates/redodb_model/specs/Lib.antt": "pub mod Rules\npub mod Bases\n",
    "crates/redodb_model/specs/Rules.antt": RULES,
    "crates/redodb_model/specs/Bases.antt": BASES,
    "crates/redodb_cli/src/main.rt": PROGRAM,
    **libraries(),
}


@dataclass
class Said:
    """What tests/believe said of a tree, its status, and the two pages after that."""

    text: str
    status: int
    believe: str
    promises: str


class SmallTree:
    """The small tree in a folder, with tests/believe beside it."""

    def __init__(self, top: Path) -> None:
        self.top = top
        (top / "tests").mkdir()
        shutil.copy(TESTS / "believe", top / "tests" / "believe")
        shutil.copytree(TESTS / "believed", top / "tests" / "believed")
        # so that Python reads them once
        compileall.compile_dir(top / "tests", quiet=1)

    def write(self, files: Files) -> None:
        """Makes the files all that there is."""
        shutil.rmtree(self.top / "crates", ignore_errors=True)
        for name, text in files.items():
            if text is not None:
                (self.top / name).parent.mkdir(parents=True, exist_ok=True)
                (self.top / name).write_text(text)

    def said_of(self, changes: Files, word: str | None = None) -> Said:
        """What tests/believe says of the small tree with these changes."""
        self.write({**SMALL, **changes})
        words = [str(self.top / "tests" / "believe"), *([word] if word else [])]
        done = subprocess.run(words, capture_output=True, text=True, check=False)
        pages = [(self.top / "docs" / name).read_text() for name in ("BELIEVE.md", "PROMISES.md")]
        return Said(done.stdout + done.stderr, done.returncode, *pages)


def with_rules(uses: str, body: str, **files: str) -> Files:
    """The small tree in which `Right` is the end of this body, after these imports; and other files
    of redodb_model's specs."""
    named: Files = {f"crates/redodb_model/specs/{name}.antt": text for name, text in files.items()}
    return {"crates/redodb_model/specs/Rules.antt": f"{RULES_USES}{uses}\n\n{body}\n", **named}


def with_session(changes: dict[str, str]) -> str:
    """The code of redodb_run with some texts replaced."""
    text = SESSION
    for old, new in changes.items():
        assert old in text, old
        text = text.replace(old, new, 1)
    return text
