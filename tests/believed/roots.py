"""The functions whose contracts have to be believed, and the types that these don't speak of."""
import re
from collections.abc import Iterator

from believed.code import Contract, paths_of

# a crate and a public function of it
Root = tuple[str, str]
ROOTS: list[Root] = [
    ("redodb_run", "run_texts"),
    ("redodb_replay", "replay_text"),
    ("redodb_conversation", "serve"),
    ("redodb_arguments", "job"),
    ("redodb_arguments", "live_job"),
    ("redodb_arguments", "finish"),
]
# what a run says besides, of which the texts can't tell: the page's last part has what this rests
# on and they don't
BESIDE: list[Root] = [("redodb_run", "run")]
# replay_text's result is spoken of otherwise than by its error, or the first part of what it judged
NOT_BY_VERDICT = (
    r"(?<!IfErr )(?<!IsErrOf )(?<!IsErrAnd )(?<!IfOk )\bresult\b"
    r"|IfOk result(?! \(λ judged\. )|\bjudged(?!\.0\b|\. )"
)
# types in a root's signature of which no clause speaks, and how a clause would speak of them:
# beside the verdict, replay_text gives the database for a program to end with; run takes a gate, at
# which tests have sessions wait
UNSPOKEN = {
    ("replay_text", "Live"): NOT_BY_VERDICT,
    ("run", "Gate"): r"\b(?:G|gate)\b",
}


def spoken_of(contract: Contract) -> Iterator[list[str]]:
    """The paths in a signature, but for the types of which no clause speaks."""
    for words in paths_of(contract.signature):
        spoken = UNSPOKEN.get((contract.name, words[-1]))
        if spoken is None or re.search(spoken, contract.clauses):
            yield words
