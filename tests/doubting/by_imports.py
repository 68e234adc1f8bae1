"""Definitions that are reached by each form of an import."""
from doubting.hidden import HIDDEN, MODEL, NAT, RIGHT, USE, passed, refused, through
from doubting.small_tree import Case, with_rules

BY_IMPORTS: list[Case] = [
    through("a name", USE, "hidden"),
    through("a name with an alias", f"use {MODEL}.Hidden.{{hidden as seen}}", "seen"),
    through("a module", f"use {MODEL}.Hidden", "Hidden.hidden"),
    through("a module with an alias", f"use {MODEL}.Hidden as other", "other.hidden"),
    through("an alias with a dash", f"use {MODEL}.Hidden as the-other", "the-other.hidden"),
    through("the modules above", f"use {MODEL} as model", "model.Hidden.hidden"),
    through(
        "an import by another's alias",
        f"use {MODEL} as model\nuse model.Hidden.{{hidden}}",
        "hidden",
    ),
    through("a path in braces", f"use {MODEL}.{{Hidden.hidden}}", "hidden"),
    through("the whole path", "", f"{MODEL}.Hidden.hidden"),
    through("the whole path after package", "", f"package.{MODEL}.Hidden.hidden"),
    through("an import after package", f"use package.{MODEL}.Hidden.{{hidden}}", "hidden"),
    through("braces over lines", f"use {MODEL}.Hidden.{{\n  hidden,\n}}", "hidden"),
    through("braces on the next line", f"use {MODEL}.Hidden\n  .{{hidden}}", "hidden"),
    through("a comment in braces", f"use {MODEL}.Hidden.{{ -- what is\n  hidden}}", "hidden"),
    through("a comment after an import", f"{USE} -- what is hidden", "hidden"),
    through("two blanks in an import", f"use  {MODEL}.Hidden.{{hidden}}", "hidden"),
    through(
        "a name and a module of one spelling",
        f"use {MODEL}.Hidden.{{Hidden}}\nuse {MODEL}.Hidden",
        "Hidden",
        NAT + "\nabbrev pub Hidden : ℕ\nHidden = 2\n",
    ),
    passed("a name that is passed on", f"pub {USE}\n", f"use {MODEL}.Passed.{{hidden}}", "hidden"),
    passed(
        "one that is passed on with the right to unfold it",
        f"unfoldable pub {USE}\n",
        f"use {MODEL}.Passed.{{hidden}}",
        "hidden",
    ),
    passed(
        "a module that is passed on",
        f"pub use {MODEL}.Hidden\n",
        f"use {MODEL}.Passed",
        "Passed.Hidden.hidden",
    ),
    passed(
        "an alias that is passed on",
        f"pub use {MODEL}.Hidden as other\n",
        f"use {MODEL}.Passed.other.{{hidden}}",
        "hidden",
    ),
    (
        "a file that is a folder's",
        {
            **with_rules(USE, RIGHT.format("hidden")),
            "crates/redodb_model/specs/Hidden/Lib.antt": HIDDEN,
        },
        "docs/BELIEVE.md: redodb_model/specs/Hidden/Lib.antt: 2 lines, and the page doesn't have it",
    ),
    refused("all names of a module", f"use {MODEL}.Hidden.*", RIGHT.format("hidden")),
    refused("a library that isn't known", "use Other.Hidden.{hidden}", RIGHT.format("hidden")),
    refused("an import among definitions", "", f"where-used : ℕ use\n{RIGHT.format('hidden')}"),
]
