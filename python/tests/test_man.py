"""The manual pages: what mandoc says of them, and that they name what --help names."""

import re
import shutil
import subprocess
import unittest
from pathlib import Path

import beside  # noqa: F401
from trees import TOP

PAGES = sorted((TOP / "man").glob("*.1"))
SECTIONS = [
    "NAME",
    "SYNOPSIS",
    "DESCRIPTION",
    "ENVIRONMENT",
    "FILES",
    "EXIT STATUS",
    "EXAMPLES",
    "SEE ALSO",
]
PROGRAMS = [
    "redo",
    "redo-ifchange",
    "redo-ifcreate",
    "redo-always",
    "redo-stamp",
    "redo-ood",
    "redo-targets",
    "redo-sources",
    "redo-whichdo",
    "redo-log",
]
IS_BUILT = (TOP / "redo/target/release/redo").exists()
HELPED = [
    ("redodb-live", [str(TOP / "redodb-live")]),
    ("redodb-record", [str(TOP / "redodb"), "record"]),
    ("redodb-picture", [str(TOP / "redodb"), "picture"]),
    *(
        (page, [str(TOP / "bin" / program)])
        for page, names in (("redo", PROGRAMS), ("redo-why", ["redo-why"]))
        for program in names
    ),
]


def macros(page: Path) -> list[list[str]]:
    """Return the words of each line that is a macro."""
    return [line[1:].split() for line in page.read_text().splitlines() if line.startswith(".")]


def options(page: Path) -> set[str]:
    """Return the options that the page names."""
    text = re.sub(r"(\w) Ns = Ns", r"\1", " ".join(" ".join(words) for words in macros(page)))
    found = {name for name in re.findall(r"Fl (-?[a-z][a-z-]*)", text)}
    letters = {letter for name in found if not name.startswith("-") for letter in name}
    return {f"-{name}" for name in found if name.startswith("-")} | {
        f"-{letter}" for letter in letters
    }


class Man(unittest.TestCase):
    def test_pages(self) -> None:
        self.assertEqual(
            sorted(page.stem for page in PAGES),
            ["redo", "redo-why", "redodb", "redodb-live", "redodb-picture", "redodb-record"],
        )

    @unittest.skipUnless(shutil.which("mandoc"), "wants mandoc")
    def test_mandoc_has_nothing_to_say(self) -> None:
        for page in PAGES:
            with self.subTest(page.name):
                run = subprocess.run(
                    ["mandoc", "-Tlint", "-Wwarning", page],
                    capture_output=True,
                    text=True,
                    check=False,
                )
                self.assertEqual((run.returncode, run.stdout), (0, ""))

    def test_heads_and_sections(self) -> None:
        for page in PAGES:
            with self.subTest(page.name):
                begin = macros(page)
                self.assertEqual([words[0] for words in begin[:4]], ["Dd", "Dt", "Os", "Sh"])
                self.assertEqual(begin[1][1:], [page.stem.upper(), "1"])
                self.assertRegex(" ".join(begin[0][1:]), r"^[A-Z][a-z]+ \d+, \d{4}$")
                found = [" ".join(words[1:]) for words in begin if words[0] == "Sh"]
                self.assertEqual(found, [section for section in SECTIONS if section in found])
                self.assertLessEqual({"NAME", "SYNOPSIS", "DESCRIPTION", "SEE ALSO"}, set(found))

    def test_blocks_are_closed(self) -> None:
        for page in PAGES:
            words = [line[0] for line in macros(page)]
            for begin, end in (("Bl", "El"), ("Bd", "Ed")):
                with self.subTest(page.name, block=begin):
                    self.assertEqual(words.count(begin), words.count(end))

    def test_pages_refer_to_pages_that_are_there(self) -> None:
        ours = {page.stem for page in PAGES}
        for page in PAGES:
            for words in macros(page):
                if words[0] == "Xr" and words[1].startswith("redo"):
                    self.assertIn(words[1], ours, page.name)

    def test_every_program_has_a_page(self) -> None:
        named = {
            name.strip(",")
            for page in PAGES
            for words in macros(page)
            if words[0] == "Nm"
            for name in words[1:2]
        }
        self.assertLessEqual({*PROGRAMS, "redo-why", "redodb", "redodb-live"}, named)

    def test_options_of_help_stand_in_the_page(self) -> None:
        tried = 0
        for name, words in HELPED:
            if name in ("redo", "redo-why") and not IS_BUILT:
                continue
            run = subprocess.run([*words, "--help"], capture_output=True, text=True, check=False)
            self.assertEqual((run.returncode, run.stderr), (0, ""))
            heads = [
                line.strip().split("  ")[0] for line in run.stdout.splitlines() if line[4:5] == "-"
            ]
            wanted = {word for head in heads for word in re.findall(r"--?[a-z][a-z-]*", head)}
            with self.subTest(name, words=words):
                self.assertLessEqual(wanted, options(TOP / "man" / f"{name}.1"))
            tried += 1
        self.assertGreaterEqual(tried, 3)

    def test_sessions_of_a_conversation_are_those_of_help(self) -> None:
        run = subprocess.run(
            [TOP / "redodb-live", "--help"], capture_output=True, text=True, check=False
        )
        for text in (run.stdout, (TOP / "man" / "redodb-live.1").read_text()):
            self.assertEqual(re.findall(r" from 1 to (\d+)", text), ["65535"])


if __name__ == "__main__":
    unittest.main()
