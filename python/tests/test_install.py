"""`./install PREFIX`, of a copy with stand-ins for the programs, and of the repository."""

import os
import shutil
import subprocess
import unittest
from pathlib import Path

import beside  # noqa: F401
from redodb.places import find_program
from trees import TOP, TreeTest, is_proved, program_answers

COPIED = [
    "install",
    "redodb",
    "redodb-live",
    "VERSION",
    "tools/proved",
    "bin",
    "completion",
    "man",
    "include",
    "python/redodb",
]
BUILT = "crates/redodb_live_cli/out/redodb_live_cli"
REDO = TOP / "redo/target/release/redo"
PACKAGES = "lib/redodb/python"
STAND_IN = '#!/bin/sh\necho "program $*"\n'


def built_program() -> Path:
    """Return the program itself: ./redodb-live is a script that runs it."""
    program = Path(os.fsdecode(find_program() or b""))
    return TOP / BUILT if program == TOP / "redodb-live" else program


class InstallTest(TreeTest):
    def setUp(self) -> None:
        super().setUp()
        self.prefix = self.top / "prefix"

    def install(self, repository: Path, prefix: Path) -> tuple[int, str, str]:
        run = subprocess.run(
            [repository / "install", prefix],
            cwd=self.top,
            capture_output=True,
            text=True,
            check=False,
        )
        return run.returncode, run.stdout, run.stderr

    def said(self, *words: str | Path, cwd: Path | None = None) -> str:
        """Return what an installed program prints with nothing but the system on the path."""
        kept = {
            name: value
            for name, value in os.environ.items()
            if name not in ("PYTHONPATH", "REDODB_LIVE")
        }
        run = subprocess.run(
            words,
            cwd=cwd or self.top,
            env={**kept, "PATH": os.defpath},
            capture_output=True,
            text=True,
            stdin=subprocess.DEVNULL,
            check=False,
        )
        self.assertEqual((run.returncode, run.stderr), (0, ""))
        return run.stdout


class InstallCopy(InstallTest):
    def setUp(self) -> None:
        super().setUp()
        self.copy = self.top / "copy"
        self.copy.mkdir()
        for name in COPIED:
            if (TOP / name).is_dir():
                shutil.copytree(
                    TOP / name,
                    self.copy / name,
                    symlinks=True,
                    ignore=shutil.ignore_patterns("__pycache__"),
                )
            elif (TOP / name).exists():
                (self.copy / name).parent.mkdir(exist_ok=True)
                shutil.copy2(TOP / name, self.copy / name)
        self.write("copy/crates.txt", "")
        self.age("copy/crates.txt", 10)
        for crate in ("redodb_cli", "redodb_live_cli"):
            self.write(f"copy/crates/{crate}/out/{crate}", STAND_IN).chmod(0o755)
            self.write(f"copy/crates/{crate}/out/{crate}.sources", "crates.txt")
        for name in ("redo", "redo-server"):
            program = self.write(f"copy/redo/target/release/{name}", STAND_IN)
            if REDO.exists():
                shutil.copy2(REDO.with_name(name), program)
            program.chmod(0o755)
        if program_answers():
            shutil.copy2(built_program(), self.copy / BUILT)
            os.utime(self.copy / BUILT)

    def installed(self) -> None:
        self.assertEqual(self.install(self.copy, self.prefix), (0, "", ""))

    def programs(self) -> list[str]:
        return sorted(path.name for path in (self.prefix / "bin").iterdir())

    def test_programs(self) -> None:
        self.installed()
        of_redo = [path.name for path in (TOP / "bin").iterdir()]
        self.assertEqual(self.programs(), sorted(["redodb", "redodb-live", *of_redo]))
        for name in self.programs():
            self.assertTrue(os.access(self.prefix / "bin" / name, os.X_OK), name)
            if name != "redodb":
                self.assertEqual(
                    self.said(self.prefix / "bin" / name, "--version").count("\n"), 1, name
                )

    def test_words_of_redodb(self) -> None:
        self.installed()
        redodb = self.prefix / "bin/redodb"
        self.assertEqual(self.said(redodb, "replay", "a b"), "program replay a b\n")
        self.assertEqual(self.said(redodb), "program \n")
        for word, usage in (("record", "redodb record"), ("picture", "redodb picture")):
            self.assertTrue(self.said(redodb, word, "--help").startswith(f"usage: {usage}"))
        self.assertTrue(self.said(redodb, "serve", "--help").startswith("usage: redo-server"))

    def test_words_of_python_where_the_package_is_not(self) -> None:
        self.installed()
        shutil.rmtree(self.prefix / "lib/redodb/python")
        for word in ("record", "picture"):
            words = [str(self.prefix / "bin/redodb"), word, "--help"]
            run = subprocess.run(words, capture_output=True, text=True, check=False)
            line = f"redodb: {word}: the package python3-redodb has this word\n"
            self.assertEqual((run.returncode, run.stdout, run.stderr), (2, "", line))

    def test_nothing_is_imported_from_the_working_folder(self) -> None:
        self.installed()
        for name in ("redodb/__init__", "redodb/__main__", "json", "os", "sitecustomize", "shutil"):
            self.write(f"hostile/{name}.py", f"open('{self.top}/ran', 'w')\n")
        hostile = self.top / "hostile"
        for name in set(self.programs()) - {"redodb"}:
            self.said(self.prefix / "bin" / name, "--version", cwd=hostile)
        for word in ("record", "picture", "serve"):
            self.said(self.prefix / "bin/redodb", word, "--help", cwd=hostile)
        self.assertFalse((self.top / "ran").exists())

    def test_by_a_symbolic_link_from_elsewhere(self) -> None:
        self.installed()
        os.symlink(self.prefix / "bin/redodb", self.top / "link")
        self.assertEqual(self.said("../link", "replay", "x", cwd=self.copy), "program replay x\n")

    def test_folder_can_be_moved(self) -> None:
        self.installed()
        self.prefix.rename(self.top / "moved")
        self.assertEqual(self.said(self.top / "moved/bin/redodb", "run", "x"), "program run x\n")

    @unittest.skipUnless(program_answers(), "wants redodb-live")
    def test_record_asks_the_installed_program(self) -> None:
        self.installed()
        shutil.rmtree(self.copy)
        self.write("tree/a.d", "a.o: a.c\n")
        self.assertTrue(
            self.said(self.prefix / "bin/redodb", "record", "depfiles", "tree").startswith(
                "history "
            )
        )

    @unittest.skipUnless(program_answers() and REDO.exists(), "wants redodb-live and redo")
    def test_redo_builds(self) -> None:
        self.installed()
        shutil.rmtree(self.copy)
        self.write("tree/all.do", "redo-ifchange a\ncat a\n")
        self.write("tree/a.do", "echo built\n")
        environment = {"PATH": f"{self.prefix}/bin:{os.defpath}"}
        run = subprocess.run(
            ["redo"],
            cwd=self.top / "tree",
            env=environment,
            capture_output=True,
            text=True,
            check=False,
        )
        self.assertEqual(
            (run.returncode, (self.top / "tree/all").read_text()), (0, "built\n"), run.stderr
        )

    def test_manual_pages_and_completions(self) -> None:
        self.installed()
        share = self.prefix / "share"
        for name in self.programs():
            self.assertIn(".Sh NAME", (share / f"man/man1/{name}.1").read_text())
            self.assertIn(name, (share / f"bash-completion/completions/{name}").read_text())
            self.assertIn(name, (share / f"fish/vendor_completions.d/{name}.fish").read_text())
        self.assertTrue((share / "man/man1/redodb-record.1").is_file())
        self.assertTrue(
            (share / "zsh/site-functions/_redodb").read_text().startswith("#compdef redodb ")
        )

    def test_again_in_place_of_an_earlier_one(self) -> None:
        self.installed()
        before = sorted(path.relative_to(self.prefix) for path in self.prefix.rglob("*"))
        self.write("prefix/lib/redodb/python/redodb/old.py", "")
        self.write("prefix/bin/other", "mine")
        self.installed()
        (self.prefix / "bin/other").unlink()
        self.assertEqual(
            sorted(path.relative_to(self.prefix) for path in self.prefix.rglob("*")), before
        )

    def test_package_is_compiled(self) -> None:
        self.installed()
        package = self.prefix / "lib/redodb/python/redodb"
        modules = {path.stem for path in package.glob("*.py")}
        self.assertEqual(
            {path.name.split(".")[0] for path in (package / "__pycache__").glob("*.pyc")}, modules
        )

    def test_library(self) -> None:
        library = self.prefix / "lib/libredodb.so.0"
        names = ["include/redodb.h", "lib/libredodb.a", "lib/libredodb.so", "lib/pkgconfig/redodb.pc"]
        self.installed()
        self.assertFalse(any((self.prefix / name).exists() for name in names))
        for name in ("libredodb.a", library.name):
            self.write(f"copy/library/out/{name}", name)
        self.installed()
        self.assertTrue(all((self.prefix / name).is_file() for name in names))
        self.assertEqual(os.readlink(self.prefix / "lib/libredodb.so"), library.name)
        finds = "from redodb.places import find_library; print(find_library().decode())"
        program = ("python3", "-c", f"import sys; sys.path.insert(0, {PACKAGES!r}); {finds}")
        found = self.said(*program, cwd=self.prefix)
        self.assertEqual(Path(found.strip()), library)

    def test_programs_of_a_clone(self) -> None:
        """The scripts in bin run what redo/build built, also through a symbolic link."""
        os.symlink(self.copy / "bin/redo-log", self.top / "redo-log")
        line = "redo-log: not built yet: redo/build builds it\n"
        run = subprocess.run(["./redo-log"], cwd=self.top, capture_output=True, check=False)
        self.assertEqual((run.returncode, run.stdout, run.stderr), (2, b"", line.encode()))
        self.write("copy/redo/target/release/redo-log", STAND_IN).chmod(0o755)
        self.assertEqual(self.said("./redo-log", "a b", cwd=self.top), "program a b\n")

    def assert_refused(self, line: str) -> None:
        self.assertEqual(self.install(self.copy, self.prefix), (2, "", f"install: {line}\n"))
        self.assertFalse(self.prefix.exists())

    def assert_not_proved(self, names: str) -> None:
        self.assert_refused(f"{names}: not proved yet: ./prove proves and builds it")

    def test_nothing_is_proved(self) -> None:
        shutil.rmtree(self.copy / "crates")
        self.assert_not_proved("redodb and redodb-live")

    def test_source_is_newer(self) -> None:
        self.age("copy/crates.txt", -100)
        self.assert_not_proved("redodb and redodb-live")

    def test_one_program_is_missing(self) -> None:
        (self.copy / "crates/redodb_live_cli/out/redodb_live_cli").unlink()
        self.assert_not_proved("redodb-live")

    def test_redo_is_missing(self) -> None:
        (self.copy / "redo/target/release/redo-server").unlink()
        self.assert_refused("redo: not built yet: redo/build builds it")

    def test_source_of_redo_is_newer(self) -> None:
        self.write("copy/redo/core/src/new.rs", "")
        self.age("copy/redo/core/src/new.rs", -100)
        self.assert_refused("redo: not built yet: redo/build builds it")

    def test_prefix_is_a_file(self) -> None:
        self.write("prefix", "")
        status, out, errors = self.install(self.copy, self.prefix)
        self.assertEqual((status, out, errors.count("\n")), (2, "", 1))
        self.assertRegex(errors, r"\Ainstall: .*/prefix/lib.*: Not a directory\n\Z")

    def test_words(self) -> None:
        for words, status in (("--help", 0), ("", 2), ("a b", 2), ("--prefix", 2)):
            with self.subTest(words):
                command = [str(self.copy / "install"), *words.split()]
                run = subprocess.run(command, capture_output=True, text=True, check=False)
                self.assertEqual(run.returncode, status)
                self.assertIn("Usage: ./install PREFIX", run.stdout)


@unittest.skipUnless(
    is_proved("redodb_cli") and is_proved("redodb_live_cli") and REDO.exists(),
    "wants the proved programs, and redo",
)
class InstallRepository(InstallTest):
    def test_proved_program_runs(self) -> None:
        self.assertEqual(self.install(TOP, self.prefix), (0, "", ""))
        history = TOP / "tests/worked/first.history"
        verdict = self.said(self.prefix / "bin/redodb", "replay", history)
        self.assertEqual(verdict, f"same {history.read_text().split()[1]}\n")


if __name__ == "__main__":
    unittest.main()
