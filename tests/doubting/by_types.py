"""Types and constants of the code that are reached, by each way in which others name them."""
from doubting.by_clauses import FIRST, OTHER, SOURCE, code_of
from doubting.small_tree import Case, Files, with_rules, with_session

KINDS = "crates/redodb_model/src/kinds.rt"
STRUCT = "pub struct Hidden {\n    first: u8,\n}\n"
IN_KINDS = code_of("redodb_model/src/kinds.rt", 3)
IN_OTHER = code_of("redodb_run/src/other.rt", 3)
OUTER = "use Rattle.redodb_run.specs.declared.other.Outer.{Outer}"
RIGHT = "abbrev pub Right : ℕ → Type 0\nRight n = n ≡ base × Outer"


def signed(name: str, word: str, uses: str, files: Files, complaint: str = IN_KINDS) -> Case:
    """A type in the signature of run_texts, with these imports."""
    code = with_session({FIRST: FIRST + uses, "word: u8": f"word: {word}"})
    return name, {KINDS: STRUCT, SOURCE: code, **files}, complaint


def declared(name: str, outer: str, files: Files, complaint: str) -> Case:
    """A type that a definition names, of which this is the code."""
    return name, {**with_rules(OUTER, RIGHT), OTHER: outer, **files}, complaint


def inner(name: str, outer: str) -> Case:
    """A type of another crate that it is made of."""
    return declared(name, outer, {KINDS: STRUCT}, IN_KINDS)


def same_file(name: str, outer: str, count: int) -> Case:
    """Items of the same file that it is made of, with it this number of lines."""
    return declared(name, outer, {}, code_of("redodb_run/src/other.rt", count))


TRAIT = "pub trait Hidden {\n    ghost part: u8;\n}\n"
BY_SIGNATURES: list[Case] = [
    signed("a type of the signature", "Hidden", "use redodb_model::Hidden;\n", {}),
    signed("imports over lines", "Hidden", "use redodb_model::{\n    Hidden,\n};\n", {}),
    signed("braces in braces", "Hidden", "use redodb_model::{a, kinds::{b, Hidden}};\n", {}),
    signed("all names of a crate", "Hidden", "use redodb_model::*;\n", {}),
    signed("an alias of Rust", "Seen", "use redodb_model::Hidden as Seen;\n", {}),
    signed("an alias of a crate", "m::Hidden", "use redodb_model as m;\n", {}),
    signed("an alias of a module itself", "k::Hidden", "use redodb_model::kinds::{self as k};\n", {}),
    signed("a path from the outermost on", "Hidden", "use ::redodb_model::Hidden;\n", {}),
    signed(
        "a crate under another name",
        "m::Hidden",
        "extern crate redodb_model as m;\n",
        {},
        "crates/redodb_run/src/lib.rt: an extern crate can't be read",
    ),
    signed("a path of Rust", "redodb_model::kinds::Hidden", "", {}),
    signed("a module of Rust", "kinds::Hidden", "use redodb_model::kinds;\n", {}),
    signed("a module itself", "kinds::Hidden", "use redodb_model::kinds::{self};\n", {}),
    signed(
        "a type that is passed on",
        "Hidden",
        "use redodb_conversation::Hidden;\n",
        {"crates/redodb_conversation/src/passed.rt": "pub use redodb_model::kinds::Hidden;\n"},
    ),
    signed(
        "a type that isn't public",
        "Hidden",
        "use crate::other::Hidden;\n",
        {OTHER: STRUCT.replace("pub ", "pub(super) ")},
        IN_OTHER,
    ),
    signed(
        "a type in a reference",
        "&mut [Hidden]",
        "use crate::other::Hidden;\n",
        {OTHER: STRUCT},
        IN_OTHER,
    ),
    signed("a trait", "impl Hidden", "use crate::other::Hidden;\n", {OTHER: TRAIT}, IN_OTHER),
    signed(
        "attributes on its line",
        "Hidden",
        "use crate::other::Hidden;\n",
        {OTHER: "#[derive(Drop)] " + STRUCT},
        IN_OTHER,
    ),
    signed(
        "a type that isn't there",
        "Hidden",
        "use redodb_model::kinds::Hidden;\n",
        {KINDS: "made! { Hidden }\n"},
        "crates/redodb_run/src/lib.rt: nothing is found of redodb_model::kinds::Hidden",
    ),
]
BY_TYPES: list[Case] = [
    inner("a field", "use redodb_model::Hidden;\npub struct Outer {\n    a: Hidden,\n}\n"),
    inner(
        "a field that begins a line",
        "use redodb_model::Hidden;\npub struct Outer(\n    u8,\n    Hidden,\n);\n",
    ),
    inner(
        "a variant's field",
        "use redodb_model::Hidden;\npub enum Outer {\n    A(\n        Hidden,\n    ),\n}\n",
    ),
    inner("an alias on the next line", "use redodb_model::Hidden;\npub type Outer =\n    Hidden;\n"),
    inner("a path in a field", "pub struct Outer {\n    a: redodb_model::kinds::Hidden,\n}\n"),
    inner(
        "an import of several lines",
        "use redodb_model::{\n    Hidden,\n};\npub struct Outer(Hidden);\n",
    ),
    inner("an alias in a field", "use redodb_model::Hidden as H;\npub struct Outer(\n    u8, H);\n"),
    same_file("a private type", "struct Inner {\n    a: u8,\n}\n\npub struct Outer(Inner);\n", 4),
    same_file("a constant", "const MOST: u8 = 3;\n\npub struct Outer([u8; MOST]);\n", 2),
    same_file(
        "a constant of a constant",
        "const ONE: u8 = 1;\nconst MOST: u8 = ONE;\n\npub struct Outer([u8; MOST]);\n",
        3,
    ),
    same_file(
        "a constant with a brace in it",
        "const A: u8 = b'{';\n\npub struct Outer([u8; A]);\n",
        2,
    ),
    same_file("two types on a line", "struct Inner(u8); pub struct Outer(\n    u8, Inner);\n", 3),
    declared(
        "a type that a macro makes",
        "made! { Hidden }\n\npub struct Outer(Hidden);\n",
        {},
        "Hidden is reached, and nothing tells what it means",
    ),
    same_file("a comment in a type", "pub struct Outer {\n    /* } */\n    a: u8,\n}\n", 3),
]
