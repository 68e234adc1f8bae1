"""Definitions that are reached by clauses and by the imports of code; what is refused of these."""
from doubting.hidden import FOUND, HIDDEN, MODEL
from doubting.small_tree import Case, Files, with_session

SOURCE = "crates/redodb_run/src/lib.rt"
OTHER = "crates/redodb_run/src/other.rt"
SPECS: Files = {"crates/redodb_model/specs/Hidden.antt": HIDDEN}
CLAUSE = "    ensures right { Right result }\n"
MORE = "    ensures more { hidden result }\n"
FIRST = "ghost use Rattle.redodb_model.specs.Rules.{Right};\n"
USE = f"ghost use {MODEL}.Hidden.{{hidden}};\n"
UNFOLLOWED = "tests/believe: Rattle.redodb_model.{} is reached, and isn't followed"
UNREAD = "the contract of run_texts can't be read"


def session(clauses: str, uses: str, more: Files | None = None) -> Files:
    """The tree with these clauses of run_texts after its own, and these imports."""
    code = with_session({CLAUSE: CLAUSE + clauses, FIRST: FIRST + uses})
    return {SOURCE: code, **SPECS, **(more or {})}


def clause(name: str, clauses: str, uses: str = USE) -> Case:
    """Clauses that reach what is hidden."""
    return name, session(clauses, uses), FOUND.format(2)


def code_of(file: str, count: int) -> str:
    """The complaint about a file of code."""
    return f"docs/BELIEVE.md: {file}: {count} lines, and the page doesn't have it"


INNER = "mod inner {\n    ghost use Rattle.redodb_model.specs.Rules.{Right as hidden};\n}\n"
ENUM: Files = {OTHER: "pub enum Hidden {\n    A,\n}\n"}
BY_CLAUSES: list[Case] = [
    clause("a clause", MORE),
    clause("what is required", "    requires { hidden word }\n"),
    clause("a clause with a star", "    ensures* more { hidden result }\n"),
    clause("braces on the next line", "    ensures more\n    {\n        hidden result\n    }\n"),
    clause(
        "a line that ends with a brace",
        "    ensures more { Right\n        (record {\n        a = hidden })\n    }\n",
    ),
    clause(
        "a line that ends with a semicolon",
        "    ensures more { Right (record {\n        a = 1;\n        b = hidden }) }\n",
    ),
    clause("a clause after a text with braces", '    ensures text { Right "}{" }\n' + MORE),
    clause("a clause after a comment with a brace", "    // {\n" + MORE),
    clause("an import over lines", MORE, f"ghost use {MODEL}.Hidden.{{\n    hidden,\n}};\n"),
    clause(
        "an import over lines with a comment",
        MORE,
        f"ghost use {MODEL}.Hidden.{{\n    // what is\n    hidden,\n}};\n",
    ),
    clause("an alias", MORE.replace("hidden", "seen"), USE.replace("hidden}", "hidden as seen}")),
    clause("a module", MORE.replace("hidden", "Hidden.hidden"), f"ghost use {MODEL}.Hidden;\n"),
    clause("an import below, of another meaning", MORE, USE + INNER),
    clause("two imports on a line", MORE, f"ghost use {MODEL}.Rules.{{Right}}; {USE}"),
    clause("an import that is public", MORE, USE.replace("ghost", "pub ghost")),
    clause("the whole path", MORE.replace("hidden", f"{MODEL}.Hidden.hidden"), ""),
    (
        "a type of the code in a clause",
        session("    ensures more { Hidden.A }\n", "use crate::other::Hidden;\n", ENUM),
        code_of("redodb_run/src/other.rt", 3),
    ),
    (
        "a path of Rust in a clause",
        session("    ensures more { crate::other::Hidden.A }\n", "", ENUM),
        "Hidden is reached, and nothing tells what it means",
    ),
    (
        "a type and a definition of one name",
        session(
            "    ensures more { Hidden.A }\n",
            f"ghost use {MODEL}.Hidden.{{hidden as Hidden}};\nuse crate::other::Hidden;\n",
            ENUM,
        ),
        code_of("redodb_run/src/other.rt", 3),
    ),
    (
        "the contract of another function",
        session("    ensures more { f.ensures }\n", f"ghost use {MODEL}.contracts.f;\n"),
        UNFOLLOWED.format("specs.contracts.f.ensures"),
    ),
    (
        "a definition of proofs",
        session("    ensures more { it }\n", "ghost use Rattle.redodb_model.proofs.Bases.{it};\n"),
        UNFOLLOWED.format("proofs.Bases.it"),
    ),
    (
        "a clause of another kind",
        {SOURCE: with_session({CLAUSE: "    promises { Right }\n" + CLAUSE})},
        UNREAD,
    ),
    ("a clause of another kind after others", session("    promises { Right }\n", ""), UNREAD),
    (
        "a comment beside a clause",
        session(MORE.replace("result", "// result\n       "), USE),
        "a comment is beside the contract of run_texts",
    ),
    (
        "an import in another form",
        session(MORE, f"ghost use {MODEL}.Hidden.{{hidden}} as other;\n"),
        "an import can't be read",
    ),
]
