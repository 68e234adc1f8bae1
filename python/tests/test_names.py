"""Names of paths: relative to the top, with %XX for what no name may have."""
import doctest
import os
import tempfile
import unittest

import beside  # noqa: F401
from redodb import names
from redodb.errors import BadName, NameTooLong
from redodb.names import is_internal, is_name, name_of, path_of


def load_tests(
    loader: unittest.TestLoader, tests: unittest.TestSuite, pattern: str | None
) -> unittest.TestSuite:
    tests.addTests(doctest.DocTestSuite(names))
    return tests


class Names(unittest.TestCase):
    def setUp(self) -> None:
        folder = tempfile.TemporaryDirectory()
        self.addCleanup(folder.cleanup)
        self.top = os.fsencode(os.path.realpath(folder.name))
        os.makedirs(self.top + b"/real/inner")
        os.symlink(b"real", self.top + b"/link")
        os.symlink(b"real/inner", self.top + b"/file_link")

    def name(self, path: bytes) -> bytes:
        return name_of(os.path.join(self.top, path), self.top)

    def test_is_relative_to_the_top(self) -> None:
        self.assertEqual(self.name(b"a.c"), b"a.c")
        self.assertEqual(self.name(b"real/./inner/../a.c"), b"real/a.c")
        self.assertEqual(self.name(b"../beside/x"), b"../beside/x")
        self.assertEqual(name_of(b"/usr", b"/"), b"usr")

    def test_of_a_relative_path_goes_by_the_working_folder(self) -> None:
        before = os.getcwd()
        self.addCleanup(os.chdir, before)
        os.chdir(self.top + b"/real")
        self.assertEqual(name_of(b"x", self.top), b"real/x")
        self.assertEqual(name_of(b"../x", self.top), b"x")

    def test_resolves_links_of_the_folder_part_alone(self) -> None:
        self.assertEqual(self.name(b"link/a.c"), b"real/a.c")
        self.assertEqual(self.name(b"file_link"), b"file_link")
        self.assertEqual(self.name(b"link/inner/../x"), b"real/x")

    def test_of_a_folder_is_resolved_whole(self) -> None:
        self.assertEqual(self.name(b"link/"), b"real")
        self.assertEqual(self.name(b"file_link/.."), b"real")
        self.assertEqual(self.name(b"."), b".")

    def test_escapes_what_no_name_may_have(self) -> None:
        for path, name in (
            (b"a b", b"a%20b"),
            (b"100%", b"100%25"),
            (b"\xff\n", b"%FF%0A"),
            (b"#x", b"%23x"),
            (b"x#", b"x#"),
            (b"-", b"%2D"),
            (b"=>", b"%3D>"),
            (b"--", b"--"),
            (b"~", b"~"),
            (b"\x7f", b"%7F"),
            ("\u00e9".encode(), b"%C3%A9"),
        ):
            with self.subTest(path=path):
                self.assertEqual(self.name(path), name)
                self.assertTrue(is_name(name))
                self.assertEqual(path_of(name, self.top), self.top + b"/" + path)

    def test_of_every_byte_leads_back_to_its_path(self) -> None:
        for byte in set(range(1, 256)) - {ord("/"), ord(".")}:
            for path in (bytes([byte]), b"d/" + bytes([byte]), b"x" + bytes([byte])):
                name = self.name(path)
                self.assertTrue(is_name(name), name)
                self.assertEqual(path_of(name, self.top), self.top + b"/" + path)

    def test_too_long_is_an_error(self) -> None:
        self.assertEqual(len(self.name(b"a" * 255)), 255)
        with self.assertRaises(NameTooLong):
            self.name(b"a" * 256)
        self.assertEqual(len(self.name(b" " * 85)), 255)
        with self.assertRaises(NameTooLong):
            self.name(b" " * 86)

    def test_that_no_path_has_is_an_error(self) -> None:
        for name in (
            b"//always",
            b"",
            b"-",
            b"=>",
            b"#x",
            b"a b",
            b"%",
            b"%4",
            b"%2d",
            b"%41",
            b"x%2Fy",
            b"%00",
            b"a" * 256,
            b"\xff",
        ):
            with self.subTest(name=name), self.assertRaises(BadName):
                path_of(name, self.top)
        with self.assertRaises(BadName):
            name_of(b"", self.top)

    def test_outside_of_the_tree_leads_back(self) -> None:
        self.assertEqual(os.path.normpath(path_of(b"../x", b"/a/b")), b"/a/x")
        self.assertEqual(name_of(b"/a/x", b"/a/b"), b"../x")

    def test_of_redo_itself_are_no_paths(self) -> None:
        for name in (b"//always", b"//edited/a", b"//left/a"):
            self.assertTrue(is_internal(name))
            self.assertTrue(is_name(name))
            with self.assertRaises(BadName):
                path_of(name, self.top)
        for name in (b"a", b"edited/a", b"../a", b"."):
            self.assertFalse(is_internal(name))
