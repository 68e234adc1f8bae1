"""The words of `python3 -m redodb`, and how ./redodb passes them on."""

import ast
import os
import subprocess
import sys
import unittest
from pathlib import Path

import beside  # noqa: F401
from redodb import __version__
from redodb.__main__ import MODULES
from trees import TOP, TreeTest

OLDER = f"""#!{sys.executable} -IS
import runpy
import sys

sys.version_info = (3, 10, 14, "final", 0)
sys.argv = sys.argv[next(n for n, word in enumerate(sys.argv) if n and word[0] != "-"):]
runpy.run_path(sys.argv[0], run_name="__main__")
"""
"""A python3 that says that it is older."""


def run(*words: str) -> tuple[int, str, str]:
    """Return the status, standard output and standard error of a program."""
    environment = {**os.environ, "PYTHONPATH": str(TOP / "python")}
    ended = subprocess.run(words, env=environment, capture_output=True, text=True, check=False)
    return ended.returncode, ended.stdout, ended.stderr


def module(*words: str) -> tuple[int, str, str]:
    return run(sys.executable, "-m", "redodb", *words)


class Main(unittest.TestCase):
    def test_help_and_version(self) -> None:
        status, out, errors = module("--help")
        self.assertEqual((status, errors), (0, ""))
        for word in MODULES:
            self.assertIn(f"\n    {word} ", out)
        self.assertEqual(module("--version"), (0, f"redodb {__version__}\n", ""))

    def test_no_such_word(self) -> None:
        for words in ((), ("build",), ("--help", "record"), ("Record",)):
            with self.subTest(words):
                status, out, errors = module(*words)
                self.assertEqual((status, out), (2, ""))
                self.assertTrue(errors.startswith("usage: redodb record"))

    def test_each_word_has_help(self) -> None:
        for word in MODULES:
            status, out, errors = module(word, "--help")
            self.assertEqual((status, errors), (0, ""))
            self.assertTrue(out.startswith(f"usage: redodb {word}"))

    def test_a_word_imports_its_own_module_alone(self) -> None:
        for word in MODULES:
            script = (
                "import sys\n"
                "from redodb.__main__ import main\n"
                f"main(['{word}', '--help'])\n"
                "print(*sorted(name for name in sys.modules if name.count('.') == 1"
                " and name.startswith('redodb.')), file=sys.stderr)\n"
                "print('asyncio' in sys.modules, file=sys.stderr)\n"
            )
            _, _, errors = run(sys.executable, "-c", script)
            loaded, has_asyncio = errors.splitlines()
            package = {each: "redodb." + MODULES[each].split(".")[1] for each in MODULES}
            self.assertEqual(set(package.values()) & set(loaded.split(" ")), {package[word]})
            self.assertEqual(has_asyncio, "False", word)


class Script(unittest.TestCase):
    def test_words_are_passed_on(self) -> None:
        for word in MODULES:
            self.assertEqual(run(str(TOP / "redodb"), word, "--help"), module(word, "--help"))

    def test_status_and_arguments_are_passed_on(self) -> None:
        status, out, errors = run(str(TOP / "redodb"), "picture", "run", "no such  file")
        wanted = "redodb picture: no such  file: No such file or directory\n"
        self.assertEqual((status, out, errors), (2, "", wanted))

    def test_other_words_are_as_before(self) -> None:
        for words in (("--help",), ("--version",), ("Record",), ("records",)):
            with self.subTest(words):
                self.assertEqual(run(str(TOP / "redodb"), *words), (2, "", "redodb: usage\n"))


class OlderPython(TreeTest):
    """Each program says in one line that it needs a newer Python."""

    def setUp(self) -> None:
        super().setUp()
        self.python = self.write("older/python3", OLDER)
        self.python.chmod(0o755)

    def said(self, status: int, *words: str | Path) -> str:
        """Return the one line that a program says, without the path of Python."""
        path = f"{self.top}/older:{os.environ['PATH']}"
        run = subprocess.run(
            words, env={**os.environ, "PATH": path}, capture_output=True, text=True, check=False
        )
        self.assertEqual((run.returncode, run.stdout), (status, ""), run.stderr)
        self.assertEqual(run.stderr.count("\n"), 1, run.stderr)
        return run.stderr.partition(",")[0]

    def test_words_of_redodb(self) -> None:
        for word in MODULES:
            self.assertEqual(
                self.said(2, TOP / "redodb", word, "--help"), "redodb: it needs Python 3.11"
            )

    def test_install(self) -> None:
        said = self.said(2, TOP / "install", self.top / "prefix")
        self.assertEqual(said, "install: it needs Python 3.11")

    def test_older_pythons_can_read_the_files(self) -> None:
        main = TOP / "python/redodb/__main__.py"
        for file, version in ((main, 4), (TOP / "install", 6)):
            with self.subTest(file):
                ast.parse(file.read_text(), feature_version=(3, version))


if __name__ == "__main__":
    unittest.main()
