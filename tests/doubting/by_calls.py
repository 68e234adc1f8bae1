"""Programs that call a root, and others that only seem to."""
from doubting.small_tree import PROGRAM, SAME, SMALL, Case, Files

MAIN = "crates/redodb_cli/src/main.rt"
OTHER = "crates/redodb_cli/src/other.rt"
ENDING = "crates/redodb_arguments/src/lib.rt"
USE = "use redodb_arguments::finish;\n"
CALL = "    finish(0);\n"
BODY = " {\n    finish(0);\n}\n"
BELOW = "    below(0);\n"
BELOW_USE = "use redodb_text::calls::below;\n"
LIBRARY = "crates/redodb_text/src/calls.rt"
UNCALLED = "docs/BELIEVE.md: no program calls finish of redodb_arguments in main, or right below it"
ODD = "tests/believe: crates/redodb_cli/src/main.rt: "


def calling(call: str, more: str = "", use: str = USE) -> Files:
    """The program in which this is in place of a call of `finish`, with this import and more."""
    assert USE in PROGRAM and CALL in PROGRAM
    return {MAIN: PROGRAM.replace(USE, use).replace(CALL, call) + more}


def uncalled(name: str, call: str, more: str = "", use: str = USE) -> Case:
    """A program that doesn't call `finish`, though it may seem so."""
    return name, calling(call, more, use), UNCALLED


def refused(name: str, call: str, complaint: str, more: str = "") -> Case:
    """A program that can't be read."""
    return name, calling(call, more), ODD + complaint


def in_library(name: str, function: str, call: str = "", use: str = "") -> Case:
    """A function of a library that calls `finish`, and a program that doesn't."""
    return name, {**calling(call, use=use), LIBRARY: f"{USE}\n{function}{BODY}"}, UNCALLED


OTHERS = str(SMALL[ENDING]).replace(SAME.format("finish"), "")
PASSED_ON: Files = {
    ENDING: "mod inner;\n\npub use redodb_text::finish;\n" + OTHERS,
    "crates/redodb_arguments/src/inner.rt": "ghost use Rattle.std.specs.Prelude.{◌≡◌};\n"
    + SAME.format("finish"),
}
BY_CALLS: list[Case] = [
    uncalled("a root that no main calls", ""),
    ("no program", {MAIN: None}, UNCALLED),
    uncalled("a root in a comment", "    // finish(0);\n"),
    uncalled("a root in a comment over lines", "    /*\n    finish(0);\n    */\n"),
    uncalled("a root in a text", '    say("finish(0)");\n'),
    uncalled("a root in a text over lines", '    say(r#"\n    finish(0);\n"#);\n'),
    uncalled("a root in the brackets of a macro", "    stringify!(finish(0));\n"),
    uncalled("a root that is passed and not called", "    below(finish);\n"),
    uncalled("a method", "    word.finish(0);\n"),
    uncalled("a longer name", "    finish_all(0);\n    refinish(0);\n"),
    uncalled("a function of another module", "    other::finish(0);\n"),
    uncalled("a function of another crate, by its path", "    redodb_text::finish(0);\n"),
    uncalled("a function of a trait", "    <u8 as Ends>::finish(0);\n"),
    uncalled("a function of another crate", CALL, use="use redodb_text::finish;\n"),
    uncalled("another function under this name", CALL, use="use redodb_arguments::{end as finish};\n"),
    uncalled("the program's own function", CALL, "fn finish(word: u8) {}\n", use=""),
    uncalled(
        "the program's own function, and an import in a module",
        CALL,
        "fn finish(word: u8) {}\nmod inner {\n    use redodb_arguments::finish;\n}\n",
        use="",
    ),
    uncalled("a variable", "    let finish = end;\n" + CALL),
    uncalled("a function that isn't called", "", "fn below(word: u8)" + BODY),
    uncalled(
        "a function two below main",
        BELOW,
        "fn below(word: u8) {\n    bottom(0);\n}\n\nfn bottom(word: u8)" + BODY,
    ),
    uncalled(
        "a function with a contract",
        BELOW,
        "fn below(word: u8)\n    ensures same { word ≡ word }\n" + BODY,
    ),
    uncalled(
        "a function that requires something",
        BELOW,
        "fn below(word: u8)\n    requires { word ≡ word }\n" + BODY,
    ),
    uncalled("a public function", BELOW, "pub fn below(word: u8)" + BODY),
    uncalled("a parameter", BELOW, "fn below<F: Fn(u8)>(word: u8, finish: F)" + BODY),
    uncalled(
        "a method with the name of a function that main calls",
        BELOW,
        "impl Word {\n    fn below()" + BODY + "}\n",
        use=f"{USE}{BELOW_USE}",
    ),
    uncalled("a main in a module", "", f"mod inner {{\nfn main(){BODY}}}\n"),
    in_library("a library", "pub fn below(word: u8)"),
    in_library("a library that main calls", "pub fn below(word: u8)", BELOW, BELOW_USE),
    in_library("a main of a library", "fn main()"),
    (
        "another file of the program",
        {
            **calling("    other::below(0);\n", "mod other;\n"),
            OTHER: f"{USE}\npub fn below(word: u8){BODY}",
        },
        UNCALLED,
    ),
    ("another crate's function that is passed on", PASSED_ON, f"{ENDING}: finish is of another crate"),
    refused("a function in main", "    fn finish(word: u8) {}\n" + CALL, "fn finish in main can't"),
    refused("what may be left out", "    #[cfg(test)]\n" + CALL, "#[cfg in main can't be read"),
    refused(
        "two functions of one name",
        BELOW,
        "several functions below",
        "#[cfg(test)]\nfn below(word: u8)" + BODY + "#[cfg(not(test))]\nfn below(word: u8) {}\n",
    ),
    ("no main", {MAIN: PROGRAM.replace("fn main", "fn start")}, ODD + "no function main"),
]
CALLED: list[tuple[str, Files]] = [
    ("a function below main", calling(BELOW, "fn below(word: u8)" + BODY)),
    ("a call by its path", calling("    redodb_arguments::finish(0);\n", use="")),
    ("a call by a module's path", calling("    redodb_arguments::inner::finish(0);\n", use="")),
    ("another name", calling("    end(0);\n", use="use redodb_arguments::finish as end;\n")),
    ("a crate's other name", calling("    end::finish(0);\n", use="use redodb_arguments as end;\n")),
    ("types in a call", calling("    finish::<u8, Vec<u8>>(0);\n")),
    ("a variable that is its result", calling("    let finish = finish(0);\n")),
    ("a call in a call", calling("    end(|word| !finish(word));\n")),
]
