"""Pages that are wrong, each with the complaint about it."""
from doubting.small_tree import BASES, BELIEVE, RUN_TEXTS, SESSION, Case, Files, with_session

PAGE = "docs/BELIEVE.md"
PROMISES = "docs/PROMISES.md"
SOURCE = "crates/redodb_run/src/lib.rt"
BASE_ROW = "| `redodb_model/specs/Bases.antt` | 2 | The base. |\n"


def page(old: str, new: str) -> Files:
    """The page with one text replaced."""
    assert old in BELIEVE, old
    return {PAGE: BELIEVE.replace(old, new, 1)}


def quote(text: str) -> Files:
    """A page that quotes this."""
    return {PROMISES: f"# Promises\n\n```rust\n{text}```\n"}


def other_clause(code: str, quoted: str) -> Files:
    """A clause of the code, and how the page quotes it."""
    return {
        SOURCE: with_session({"Right result": code}),
        **quote(RUN_TEXTS.replace("Right result", quoted)),
    }


ALL = "docs/BELIEVE.md: the page doesn't say once '4 lines in all'"
EXTRA = "| `redodb_model/specs/More.antt` | 1 | More. |\n"
WRONG_PAGES: list[Case] = [
    (
        "reached and not listed",
        page(BASE_ROW, ""),
        "docs/BELIEVE.md: redodb_model/specs/Bases.antt: 2 lines, and the page doesn't have it",
    ),
    (
        "listed and not reached",
        page(BASE_ROW, BASE_ROW + EXTRA),
        "docs/BELIEVE.md: redodb_model/specs/More.antt: is reached no more",
    ),
    (
        "a wrong number of lines",
        page("| 2 | The base", "| 3 | The base"),
        "docs/BELIEVE.md: redodb_model/specs/Bases.antt: 2 lines, and the page has 3",
    ),
    (
        "a wrong sum",
        page("4 lines in 2", "5 lines in 2"),
        "docs/BELIEVE.md: the last line isn't '4 lines in 2 files.'",
    ),
    (
        "a wrong sum of the last part",
        page("0 lines in 0", "1 lines in 0"),
        "docs/BELIEVE.md: the last line isn't '0 lines in 0 files.'",
    ),
    ("no sum", page("4 lines in 2 files.\n", ""), "the last line isn't '4 lines in 2 files.'"),
    ("a wrong sum of all", page("4 lines in all", "3 lines in all"), ALL),
    ("no sum of all", page("4 lines in all", "4 lines"), ALL),
    ("two sums of all", page("4 lines in all", "4 lines in all, 4 lines in all"), ALL),
    (
        "a file in the wrong part",
        {PAGE: BELIEVE.replace(BASE_ROW, "").replace("|\n\n0 lines", f"|\n{BASE_ROW}\n0 lines")},
        "docs/BELIEVE.md: redodb_model/specs/Bases.antt: is reached no more",
    ),
    (
        "a row twice, first with a wrong number",
        page(BASE_ROW, BASE_ROW.replace("2", "9") + BASE_ROW),
        "docs/BELIEVE.md: redodb_model/specs/Bases.antt: the page has it 2 times",
    ),
    (
        "a row in another form",
        page(BASE_ROW, BASE_ROW + "| redodb_model/specs/More.antt | 1 | More. |\n"),
        "docs/BELIEVE.md: a row can't be read: | redodb_model/specs/More.antt | 1 | More. |",
    ),
    ("no sentence", page("| The base. |", "| |"), "redodb_model/specs/Bases.antt: has no sentence"),
    (
        "a root that isn't named",
        page("`finish` of", "`end` of"),
        "docs/BELIEVE.md: the page doesn't name finish of redodb_arguments",
    ),
    (
        "a file that was renamed",
        {
            "crates/redodb_model/specs/Bases.antt": None,
            "crates/redodb_model/specs/Sub/Bases.antt": BASES,
            "crates/redodb_model/specs/Rules.antt": "use Rattle.redodb_model.specs.Sub.Bases.{base}\n"
            "use Rattle.std.specs.Prelude.{ℕ, ◌≡◌}\n\n"
            "abbrev pub Right : ℕ → Type 0\nRight n = n ≡ base\n",
        },
        "redodb_model/specs/Sub/Bases.antt: 2 lines, and the page doesn't have it",
    ),
    (
        "a file that was renamed, and its import wasn't",
        {
            "crates/redodb_model/specs/Bases.antt": None,
            "crates/redodb_model/specs/Bottom.antt": BASES,
        },
        "tests/believe: crates/redodb_model/",
    ),
    (
        "a root that doesn't exist",
        {SOURCE: SESSION.replace("fn run_texts", "fn run_text")},
        "tests/believe: crates/redodb_run: no function run_texts",
    ),
    (
        "a root that is there in a comment alone",
        {
            SOURCE: SESSION.replace("pub fn run_texts", "/*\npub fn run_texts").replace(
                "word\n}", "word\n}\n*/", 1
            )
        },
        "tests/believe: crates/redodb_run: no function run_texts",
    ),
    (
        "two roots of one name",
        {"crates/redodb_run/src/first.rt": SESSION.replace("Right result", "result ≡ word")},
        "tests/believe: crates/redodb_run: several functions run_texts",
    ),
    (
        "a root without a contract",
        {SOURCE: with_session({"    ensures right { Right result }\n": ""})},
        "tests/believe: crates/redodb_run: run_texts has no contract",
    ),
    (
        "a misquoted contract",
        quote(RUN_TEXTS.replace("Right result", "Right word")),
        "docs/PROMISES.md: pub fn run_texts: the code has other clauses",
    ),
    (
        "a quote that runs two words together",
        other_clause("Right word", "Rightword"),
        "docs/PROMISES.md: pub fn run_texts: the code has other clauses",
    ),
    (
        "a quote that differs after two slashes in a text",
        other_clause('Right (codes "a//b" result)', 'Right (codes "a//b" word)'),
        "docs/PROMISES.md: pub fn run_texts: the code has other clauses",
    ),
    (
        "a quote without what is required",
        {SOURCE: with_session({"    // A": "    requires { word ≡ word }\n    // A"})},
        "docs/PROMISES.md: pub fn run_texts: the code has other clauses",
    ),
    (
        "a quoted clause that isn't there",
        quote(RUN_TEXTS + "    ensures more { Right word }\n"),
        "docs/PROMISES.md: pub fn run_texts: no such contract",
    ),
    (
        "a quote of no public function",
        quote(RUN_TEXTS.replace("pub fn", "fn")),
        "docs/PROMISES.md: fn run_texts: no such contract",
    ),
    (
        "a quote in another language",
        {PROMISES: f"# Promises\n\n```rs\n{RUN_TEXTS}```\n"},
        "docs/PROMISES.md: a quote that isn't of Rust isn't compared: rs",
    ),
    (
        "a link that leads nowhere",
        {"README.md": "[there](docs/NOWHERE.md)\n"},
        "README.md: the link docs/NOWHERE.md leads nowhere",
    ),
    (
        "a definition that is inside and is reached",
        {
            "crates/redodb_model/specs/Support/Bases.antt": BASES,
            "crates/redodb_model/specs/Bases.antt": "pub use Rattle.redodb_model.specs.Support.Bases"
            ".{base}\n",
        },
        "crates/redodb_model/specs/Support/Bases.antt: is reached: base",
    ),
    (
        "a definition that no contract names",
        {"crates/redodb_model/specs/Bases.antt": BASES + "\nmore : Bases\nmore = base\n"},
        "specs/Bases.antt: no public contract names it, and it belongs in Support: more",
    ),
]
