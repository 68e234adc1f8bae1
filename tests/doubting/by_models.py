"""Definitions that are reached by the models of types, and types of which no clause speaks."""
from doubting.by_clauses import FIRST, OTHER, SOURCE, USE, code_of
from doubting.by_types import RIGHT, declared
from doubting.hidden import FOUND, HIDDEN
from doubting.small_tree import Case, Files, with_rules, with_session


def modelled(name: str, model: str, complaint: str = FOUND.format(2)) -> Case:
    """A type whose model is this."""
    hidden: Files = {"crates/redodb_model/specs/Hidden.antt": HIDDEN}
    return declared(name, "pub struct Outer {\n    first: u8,\n}\n" + model, hidden, complaint)


def replayed(clause: str) -> Files:
    """A replay that gives a verdict and a database, with this clause."""
    code = "ghost use Rattle.std.specs.Prelude.{IfOk, IsOk};\n\nuse crate::live::Live;\n\n"
    code += "pub fn replay_text(word: u8) -> (u8, Live)\n"
    return {
        "crates/redodb_replay/src/lib.rt": f"{code}    ensures ok {{ {clause} }}\n{{\n    word\n}}\n",
        "crates/redodb_replay/src/live.rt": "pub struct Live(u8);\n",
    }


MODEL = "impl Model for Outer {\n    ghost view = { hidden };\n}\n" + USE
BY_MODELS: list[Case] = [
    (
        "a function of the code as a definition",
        with_rules(
            "use Rattle.redodb_run.specs.declared.other.{part}", RIGHT.replace("Outer", "part")
        ),
        "crates/redodb_run/src: no file of other.part",
    ),
    modelled("a model", MODEL),
    modelled("a model's value", MODEL.replace("view", "Value")),
    modelled(
        "a model of any type",
        MODEL.replace("impl Model for Outer", "impl<T: Of<u8>> Model for Outer<T>"),
    ),
    modelled(
        "a model of an array's type",
        MODEL.replace("impl Model for Outer", "impl Model for Outer<[u8; 4]>"),
    ),
    modelled(
        "a model where an array is something",
        MODEL.replace("impl Model", "impl<T: Of<[u8; 4]>> Model"),
    ),
    modelled(
        "two members on a line",
        MODEL.replace("ghost view", "ghost invariant = { a }; ghost view"),
    ),
    modelled(
        "a model with an import", MODEL.replace(USE, "").replace("    ghost", f"    {USE}    ghost")
    ),
    declared(
        "a model in another file",
        "pub struct Outer {\n    first: u8,\n}\n",
        {"crates/redodb_run/src/apart.rt": MODEL, "crates/redodb_model/specs/Hidden.antt": HIDDEN},
        FOUND.format(2),
    ),
    modelled(
        "a model in another form",
        MODEL.replace(" = { hidden }", "\n        hidden"),
        "the model of Outer can't be read",
    ),
    (
        "the value of run's argument",
        {
            SOURCE: with_session(
                {FIRST: FIRST + "use crate::other::Outer;\n", "run(word: u8": "run(word: Outer"}
            ),
            OTHER: "pub struct Outer(u8);\n" + MODEL.replace("view", "Value"),
            "crates/redodb_model/specs/Hidden.antt": HIDDEN,
        },
        FOUND.format(2),
    ),
    *[
        (
            "a database that a clause speaks of",
            replayed(clause),
            code_of("redodb_replay/src/live.rt", 1),
        )
        for clause in ("IfOk result (λ judged. judged.1)", "IfOk result IsOk", "IsOk result")
    ],
]
