"""Definitions that are laid out in each way, and what is refused of these."""
from doubting.hidden import LOCAL, RIGHT, USE, here, refused
from doubting.small_tree import Case

BY_LAYOUT: list[Case] = [
    here("a definition of the file", RIGHT.format("hidden") + LOCAL, 4),
    here(
        "a comment within a definition",
        RIGHT.format("hidden") + LOCAL.replace("ℕ\n", "ℕ\n-- no end\n"),
        4,
    ),
    here(
        "a comment before a definition",
        RIGHT.format("hidden") + "\n\n{- so -} abbrev pub hidden : ℕ\nhidden = 2",
        4,
    ),
    here(
        "a comment of several lines",
        RIGHT.format("hidden") + LOCAL + "\n{-\n\nabbrev pub more : ℕ\n-}",
        4,
    ),
    here(
        "several names on a line",
        RIGHT.format("hidden") + "\n\nabbrev pub first hidden : ℕ\nfirst = 1\nhidden = 2",
        5,
    ),
    here(
        "a signature on the next line",
        RIGHT.format("hidden") + "\n\nabbrev pub hidden\n  : ℕ\nhidden = 2",
        5,
    ),
    here("levels in a signature", RIGHT.format("hidden") + "\n\npub hidden {ℓ} : ℕ\nhidden = 2", 4),
    here(
        "what may be unfolded",
        RIGHT.format("hidden") + "\n\nunfoldable pub hidden : ℕ\nhidden = 2",
        4,
    ),
    here(
        "what may stand in patterns",
        RIGHT.format("hidden") + "\n\npattern abbrev pub hidden : ℕ\nhidden = 2",
        4,
    ),
    here("what isn't public", RIGHT.format("hidden") + "\n\nhidden : ℕ\nhidden = 2", 4),
    here("an axiom", RIGHT.format("hidden") + "\n\naxiom pub hidden : ℕ", 3),
    here(
        "a record",
        RIGHT.format("Hidden") + "\n\npub record Hidden : Type 0 where\n  pub field : ℕ",
        4,
    ),
    here(
        "a record without a type",
        RIGHT.format("Hidden") + "\n\npub record Hidden where\n  pub field : ℕ",
        4,
    ),
    here(
        "a data", RIGHT.format("Hidden") + "\n\npub data Hidden : Type 0 where\n  Case : Hidden", 4
    ),
    here(
        "a data by its case",
        RIGHT.format("Case") + "\n\npub data Hidden : Type 0 where\n  Case : Hidden",
        4,
    ),
    here(
        "a data on one line",
        RIGHT.format("Case") + "\n\npub data Hidden : Type 0 where Case : Hidden",
        3,
    ),
    here(
        "a data below another definition",
        RIGHT.format("Case") + LOCAL + "\npub data Hidden : Type 0 where\n  Case : Hidden",
        6,
    ),
    here(
        "two types with one case",
        RIGHT.format("Case") + "\n\npub data First : Type 0 where\n  Case : First"
        "\n\npub data Second : Type 0 where\n  Case : Second",
        6,
    ),
    here(
        "clauses apart",
        RIGHT.format("hidden") + "\n\nabbrev pub hidden : ℕ\n\nhidden = other"
        "\n\nabbrev pub other : ℕ\nother = 1",
        6,
    ),
    here(
        "an empty line in a record",
        RIGHT.format("Hidden") + "\n\npub record Hidden : Type 0 where\n"
        "  pub first : ℕ\n\n  pub second : Other\n\nabbrev pub Other : Type 0\nOther = ℕ",
        7,
    ),
    here(
        "an empty line in a data",
        RIGHT.format("First") + "\n\npub data Hidden : Type 0 where\n"
        "  First : Hidden\n\n  Second : Other → Hidden\n\nabbrev pub Other : Type 0\nOther = ℕ",
        7,
    ),
    here(
        "an empty line in a clause",
        RIGHT.format("hidden") + "\n\nabbrev pub hidden : ℕ\nhidden = 1 +\n\n  other"
        "\n\nabbrev pub other : ℕ\nother = 1",
        7,
    ),
    here(
        "helpers of a clause",
        RIGHT.format("(go n)") + "\n  where\n    go : ℕ → ℕ\n    go n = hidden" + LOCAL,
        7,
    ),
    here(
        "helpers after an empty line",
        RIGHT.format("(go n)") + "\n\n  where\n    go : ℕ → ℕ\n    go n = hidden" + LOCAL,
        7,
    ),
    here(
        "a bracket that is closed at the left",
        RIGHT.format("(base\n  hidden\n)") + LOCAL,
        6,
    ),
    here(
        "how an operator binds",
        RIGHT.format("(1 ⊕ 1)") + "\n\ninfixl 70 ◌⊕◌\n\nabbrev pub ◌⊕◌ : ℕ → ℕ\nn ⊕ m = n",
        5,
    ),
    here(
        "how an operator binds, said elsewhere",
        "infixl 70 ◌⊕◌\n\n" + RIGHT.format("(1 ⊕ 1)") + "\n\nabbrev pub ◌⊕◌ : ℕ → ℕ\nn ⊕ m = n",
        5,
    ),
    here(
        "an infix for a section",
        RIGHT.format("hidden") + "\n\ninfixl 70 ◌⊕◌\nabbrev pub ◌⊕◌ : ℕ → ℕ\n"
        "n ⊕ m = n\n\nabbrev pub hidden : ℕ\nhidden = 1 ⊕ 1",
        7,
    ),
    here(
        "a section's parameter",
        "module _ (h : Hidden) where\n  "
        + RIGHT.format("1").replace("\n", "\n  ")
        + "\n\nabbrev pub Hidden : Type 0\nHidden = ℕ",
        4,
    ),
    here(
        "a section's parameter on its second line",
        "module _\n  (h : Hidden)\n  where\n  "
        + RIGHT.format("1").replace("\n", "\n  ")
        + "\n\nabbrev pub Hidden : Type 0\nHidden = ℕ",
        4,
    ),
    here(
        "a section in a section",
        "module _ {N : Type 0} where\n  module _ (h : Hidden) where\n    "
        + RIGHT.format("1").replace("\n", "\n    ")
        + "\n\nabbrev pub Hidden : Type 0\nHidden = ℕ",
        4,
    ),
    refused("names of a record's value", USE, "open hidden use {part}\n\n" + RIGHT.format("part")),
    refused(
        "definitions by one another",
        USE,
        "mutual\n  " + RIGHT.format("hidden").replace("\n", "\n  "),
    ),
    refused(
        "what is derived",
        USE,
        "pub data D : Type 0 where\n  A : D\n  deriving (Eq)\n\n" + RIGHT.format("A"),
    ),
    refused(
        "a section with a name",
        USE,
        "module Named where\n  " + RIGHT.format("hidden").replace("\n", "\n  "),
    ),
    refused("a name in quotes", USE, RIGHT.format("«in»")),
]
