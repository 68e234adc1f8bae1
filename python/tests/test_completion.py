"""Completions: what each shell offers, by the shell itself."""

import re
import shutil
import subprocess
import unittest

import beside  # noqa: F401
from trees import TOP

FOLDER = TOP / "completion"
WORDS = {"run", "replay", "serve", "record", "picture"}
KINDS = {"record": {"ninja", "make", "depfiles", "compdb"}, "picture": {"run", "graph"}}
HELPED = [(["redodb", word], [str(TOP / "redodb"), word]) for word in ("record", "picture")]
HELPED += [(["redodb-live"], [str(TOP / "redodb-live")])]
if (TOP / "redo/target/release/redo").exists():
    HELPED += [(["redodb", "serve"], [str(TOP / "redodb"), "serve"])]
    HELPED += [([program.name], [str(program)]) for program in sorted((TOP / "bin").iterdir())]
BASH = """
source "$1"
shift
COMP_WORDS=("$@")
COMP_CWORD=$(($# - 1))
function=$(complete -p "$1" | sed -n 's/.* -F \\([a-z_]*\\) .*/\\1/p')
if [ -n "$function" ]; then
    "$function"
    printf '%s\\n' "${COMPREPLY[@]}"
else
    words=$(complete -p "$1" | sed -n "s/.* -W '\\([^']*\\)' .*/\\1/p")
    compgen -W "$words" -- "${COMP_WORDS[COMP_CWORD]}"
fi
"""


def options_of_help(words: list[str]) -> set[str]:
    """Return the long options of a program's --help, and those that it needn't name."""
    run = subprocess.run([*words, "--help"], capture_output=True, text=True, check=True)
    found = set(re.findall(r"^    (?:-\w(?: \w+)?, )?(--[a-z-]+)", run.stdout, re.M))
    return found | ({"--help"} if len(words) > 1 else {"--help", "--version"})


class Bash(unittest.TestCase):
    def offers(self, *words: str) -> set[str]:
        """Return what bash offers for the last of the words, in the folder of the completions."""
        run = subprocess.run(
            ["bash", "-c", BASH, "bash", FOLDER / "redodb.bash", *words],
            cwd=FOLDER,
            capture_output=True,
            text=True,
            check=False,
        )
        self.assertEqual((run.returncode, run.stderr), (0, ""))
        return set(run.stdout.split("\n")) - {""}

    def test_words_and_kinds(self) -> None:
        self.assertEqual(self.offers("redodb", ""), WORDS)
        self.assertEqual(self.offers("redodb", "re"), {"replay", "record"})
        for word, kinds in KINDS.items():
            self.assertEqual(self.offers("redodb", word, ""), kinds | {"--help"})

    def test_files_and_folders(self) -> None:
        self.assertEqual(self.offers("redodb", "replay", "redodb.b"), {"redodb.bash"})
        self.assertEqual(self.offers("redodb", "picture", "run", "redodb.b"), {"redodb.bash"})
        self.assertEqual(self.offers("redodb", "record", "ninja", "redodb.b"), set())
        self.assertEqual(self.offers("redodb-live", "--log", "redodb.z"), {"redodb.zsh"})
        self.assertEqual(self.offers("redo", "redodb.f"), {"redodb.fish"})

    def test_options_are_those_of_help(self) -> None:
        for begin, words in HELPED:
            with self.subTest(begin):
                offered = self.offers(*begin, *(["x", "x"] if begin[0] == "redodb" else []), "--")
                left_out = {"--help"} if begin[-1] in KINDS else {"--detach"}
                self.assertEqual(
                    {option.rstrip("=") for option in offered}, options_of_help(words) - left_out
                )


class Others(unittest.TestCase):
    @unittest.skipUnless(shutil.which("zsh"), "wants zsh")
    def test_zsh_reads_it(self) -> None:
        run = subprocess.run(
            ["zsh", "-n", FOLDER / "redodb.zsh"], capture_output=True, text=True, check=False
        )
        self.assertEqual((run.returncode, run.stderr), (0, ""))

    def test_zsh_completes_the_same_programs(self) -> None:
        first = (FOLDER / "redodb.zsh").read_text().splitlines()[0].split(" ")
        bash = (FOLDER / "redodb.bash").read_text()
        named = [line.split(" ") for line in bash.splitlines() if line.startswith("complete ")]
        programs = {word for line in named for word in line if word.startswith("redo")}
        self.assertEqual((first[0], set(first[1:])), ("#compdef", programs))

    @unittest.skipUnless(shutil.which("fish"), "wants fish")
    def test_fish_offers(self) -> None:
        self.assertEqual(self.fish("redodb ") & WORDS, WORDS)
        for word, kinds in KINDS.items():
            self.assertLessEqual(kinds, self.fish(f"redodb {word} "))
        for begin, words in HELPED:
            with self.subTest(begin):
                asked = " ".join(begin) + (" x x --" if begin[0] == "redodb" else " --")
                self.assertEqual(self.fish(asked), options_of_help(words) - {"--detach"})

    def fish(self, line: str) -> set[str]:
        """Return what fish offers at the end of the line."""
        words = [
            "fish",
            "--no-config",
            "-c",
            'source $argv[1]; complete -C "$argv[2]"',
            str(FOLDER / "redodb.fish"),
            line,
        ]
        run = subprocess.run(words, cwd=FOLDER, capture_output=True, text=True, check=False)
        self.assertEqual(run.returncode, 0, run.stderr)
        return {offer.split("\t")[0].rstrip("=") for offer in run.stdout.splitlines()}


if __name__ == "__main__":
    unittest.main()
