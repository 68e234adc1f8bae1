"""Definitions that are reached by each form of a word."""
from doubting.hidden import FOUND, LONGER, MODEL, NAT, RIGHT, USE, refused, through
from doubting.small_tree import Case, with_rules

BY_WORDS: list[Case] = [
    through(
        "a constructor's name",
        f"use {MODEL}.Hidden.{{Case}}",
        "Case",
        NAT + "\npub data Hidden : Type 0 where\n  Case : Hidden\n",
    ),
    through(
        "several constructors on a line",
        f"use {MODEL}.Hidden.{{Case}}",
        "Case",
        NAT + "\npub data Hidden : Type 0 where\n  Other Case : Hidden\n",
    ),
    refused("a blank of another kind", USE, RIGHT.format("\u00a0hidden"), "a sign can't be read"),
    refused("a sign that nobody sees", USE, RIGHT.format("hidden\u200b"), "a sign can't be read"),
    refused(
        "a type that nothing brings in", "", RIGHT.format("Hidden"), "nothing tells what it means"
    ),
    through("a name after an infix", USE, "1 + hidden"),
    *[
        through(
            f"an operator {way}",
            f"use {MODEL}.Hidden.{{◌⊕◌}}",
            word,
            NAT + "\nabbrev pub ◌⊕◌ : ℕ → ℕ → ℕ\nn ⊕ m = n\n",
        )
        for way, word in [
            ("between", "(n ⊕ n)"),
            ("by its whole name", "(◌⊕◌ n n)"),
            ("as a section", "(map (1 ⊕◌) n)"),
            ("as a section on its right", "(map (◌⊕ 1) n)"),
        ]
    ],
    *[
        through(
            f"an operator that {way}",
            f"use {MODEL}.Hidden.{{{name}}}",
            word,
            NAT + f"\nabbrev pub {name} : ℕ → ℕ\n{name} n = n\n",
        )
        for way, name, word in [
            ("is in brackets", "[◌]", "([ n ])"),
            ("begins with a colon", "◌:+", "(n :+)"),
            ("stands before", "¬◌", "(¬ n)"),
            ("is no letter", "∅", "(∅ n)"),
        ]
    ],
    (
        "two operators that begin alike",
        with_rules(
            f"use {MODEL}.Hidden.{{if◌so◌}}\nuse Rattle.std.specs.Prelude.{{if◌then◌else◌}}",
            RIGHT.format("(if n so n)"),
            Hidden=NAT + "\nabbrev pub if◌so◌ : ℕ → ℕ → ℕ\nif n so m = n\n",
        ),
        FOUND.format(2),
    ),
    through("a name after a text with dashes", USE, '(codes "a -- b" hidden)'),
    through("a name after a text with a brace and a dash", USE, '(codes "{-" hidden)'),
    through("a name after a text with an escape", USE, '(codes "\\" -- " hidden)'),
    through("a name after a comment in braces", USE, "{- a -- b -} hidden"),
    through("a name after binders", USE, "(λ x.hidden)"),
    through("a name after a colon", USE, "((x : hidden) → n)"),
    through(
        "an item that is longer than another",
        USE.replace("hidden}", "hidden'}"),
        "hidden'",
        NAT + "\nabbrev pub hidden' : ℕ\nhidden' = 2\n",
    ),
    (
        "a name that begins as one from elsewhere",
        with_rules("", RIGHT.format("base-two") + "\n\nabbrev pub base-two : ℕ\nbase-two = 2"),
        LONGER.format(4),
    ),
]
