"""The top of a tree, its paths, and where redodb-live is found."""
import doctest
import os
import shutil
import subprocess
import sys
import tempfile
import unittest
from pathlib import Path

import beside
from redodb import places
from redodb.errors import OtherTree, UntrustedError
from redodb.places import Places, find_top
from redodb.private import open_folder


def load_tests(
    loader: unittest.TestLoader, tests: unittest.TestSuite, pattern: str | None
) -> unittest.TestSuite:
    tests.addTests(doctest.DocTestSuite(places))
    return tests


class Tops(unittest.TestCase):
    def setUp(self) -> None:
        folder = tempfile.TemporaryDirectory()
        self.addCleanup(folder.cleanup)
        self.top = os.path.realpath(folder.name)
        os.makedirs(self.top + "/a/b/c")

    def test_are_the_nearest_folder_with_redo(self) -> None:
        os.mkdir(self.top + "/a/b/.redo")
        top = os.fsencode(self.top + "/a/b")
        self.assertEqual(find_top(os.fsencode(self.top + "/a/b/c")), top)
        self.assertEqual(find_top(top), top)
        self.assertIsNone(find_top(os.fsencode(self.top + "/a")))
        os.mkdir(self.top + "/.redo")
        self.assertEqual(find_top(os.fsencode(self.top + "/a")), os.fsencode(self.top))
        with self.assertRaisesRegex(OtherTree, "/a/b/.redo lies in the tree of .*/.redo"):
            find_top(os.fsencode(self.top + "/a/b/c"))

    def test_are_resolved(self) -> None:
        os.mkdir(self.top + "/a/.redo")
        os.symlink("a", self.top + "/link")
        self.assertEqual(find_top(os.fsencode(self.top + "/link/b")), os.fsencode(self.top + "/a"))

    def test_are_no_links(self) -> None:
        os.mkdir(self.top + "/.redo")
        os.symlink("../.redo", self.top + "/a/.redo")
        with self.assertRaisesRegex(UntrustedError, "/a/.redo is a link"):
            find_top(os.fsencode(self.top + "/a/b"))

    def test_are_no_files(self) -> None:
        Path(self.top, "a/b/.redo").write_text("")
        os.mkdir(self.top + "/.redo")
        self.assertEqual(find_top(os.fsencode(self.top + "/a/b")), os.fsencode(self.top))

    def test_need_not_be(self) -> None:
        self.assertIsNone(find_top(os.fsencode(self.top + "/a")))

    def test_have_a_private_folder(self) -> None:
        Places(os.fsencode(self.top)).make()
        Places(os.fsencode(self.top)).make()
        self.assertEqual(os.stat(self.top + "/.redo/server").st_mode & 0o777, 0o700)
        os.mkdir(self.top + "/.redo/run", 0o755)
        os.close(open_folder(os.fsencode(self.top + "/.redo/run"), 0o700))
        self.assertEqual(os.stat(self.top + "/.redo/run").st_mode & 0o777, 0o700)


class Programs(unittest.TestCase):
    """redodb-live and redo-server, as a package finds them that was put somewhere else."""

    def setUp(self) -> None:
        folder = tempfile.TemporaryDirectory()
        self.addCleanup(folder.cleanup)
        self.home = Path(folder.name).resolve()
        shutil.copytree(
            Path(beside.FOLDER, "redodb"),
            self.home / "base/python/redodb",
            ignore=shutil.ignore_patterns("__pycache__"),
        )

    def program(self, place: str, mode: int = 0o755, name: str = "redodb-live") -> Path:
        path = self.home / place / name
        path.parent.mkdir(parents=True, exist_ok=True)
        path.write_text("")
        path.chmod(mode)
        return path

    def found(self, function: str = "find_program", **environment: str) -> str:
        words = f"from redodb import places; print((places.{function}() or b'none').decode())"
        return subprocess.run(
            [sys.executable, "-c", words],
            cwd=self.home / "base/python",
            env={"PATH": "/none", **environment},
            capture_output=True,
            text=True,
            check=True,
        ).stdout.strip()

    def test_is_none_where_it_is_nowhere(self) -> None:
        self.program(".")
        self.program("base/python/redodb")
        self.assertEqual(self.found(), "none")
        self.assertEqual(self.found(PATH=":."), "none")

    def test_is_that_of_path_and_then_of_the_home(self) -> None:
        on_path = self.program("bin")
        self.assertEqual(self.found(PATH=f"/none:{self.home}/bin"), str(on_path))
        self.program("base", 0o644)
        self.assertEqual(self.found(PATH=f"{self.home}/bin"), str(on_path))
        at_home = self.program("base")
        self.assertEqual(self.found(PATH=f"{self.home}/bin"), str(at_home))
        installed = self.program("base/libexec")
        self.assertEqual(self.found(PATH=f"{self.home}/bin"), str(installed))

    def test_is_what_the_environment_says(self) -> None:
        self.program("base")
        self.assertEqual(self.found(REDODB_LIVE="/some/program"), "/some/program")
        self.assertEqual(self.found(REDODB_LIVE="here"), f"{self.home}/base/python/here")

    def test_of_a_server_are_found_in_the_same_way(self) -> None:
        def found(**environment: str) -> str:
            return self.found("find_server", PATH=f"{self.home}/bin", **environment)

        self.assertEqual(found(), "none")
        places = ("bin", "base/redo/target/release", "base/libexec")
        for place in places:
            program = self.program(place, name="redo-server")
            self.assertEqual(found(), str(program))
        self.assertEqual(found(REDO_SERVER="here"), f"{self.home}/base/python/here")

    def test_belong_to_the_redo_of_path(self) -> None:
        """As of a package beside an installation: in a virtual environment, or Debian's."""
        redo = self.program("usr/lib/redodb/bin", name="redo")
        self.program("usr/bin", name="redo").unlink()
        (self.home / "usr/bin/redo").symlink_to("../lib/redodb/bin/redo")
        path = f"/none:{self.home}/usr/bin"
        self.assertEqual(self.found("find_server", PATH=path), "none")
        self.assertEqual(self.found("find_library", PATH=path), "none")
        server = self.program("usr/lib/redodb/libexec", name="redo-server")
        self.assertEqual(self.found("find_server", PATH=path), str(server))
        library = self.program("usr/lib", name="libredodb.so.0")
        self.assertEqual(self.found("find_library", PATH=path), str(library))
        redo.unlink()
        self.assertEqual(self.found("find_server", PATH=path), "none")
