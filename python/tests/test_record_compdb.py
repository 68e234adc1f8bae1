"""`redodb record compdb --rules`: redo builds the objects of a compilation database."""

import json
import shlex
import subprocess
import unittest

import beside  # noqa: F401
from ruled_trees import HAS_REDO, RulesTest
from trees import has_tools


@unittest.skipUnless(HAS_REDO and has_tools("gcc"), "wants redo, gcc and redodb-live")
class RulesOfACompilationDatabase(RulesTest):
    def setUp(self) -> None:
        super().setUp()
        self.write("a b.c", '#include "a.h"\nint one = ONE;\n')
        self.write("a.h", "#define ONE 1\n")
        self.write("d/two.c", '#include "../a.h"\nint two = ONE;\n')
        (self.top / "out").mkdir()

    def database(self, entries: object) -> None:
        self.write("compile_commands.json", json.dumps(entries))

    def test_builds_the_objects(self) -> None:
        one = ["gcc", "-c", "../a b.c", "-o", "a b.o"]
        two = "gcc -MMD -DX='\"x y\"' -o two.o -c two.c"
        self.database(
            [
                {"directory": str(self.top / "out"), "file": "../a b.c", "arguments": one},
                {"directory": str(self.top / "d"), "file": "two.c", "command": two},
            ]
        )
        self.record("compdb", ".", "--rules")
        self.assertEqual(self.files_built("redo", "-j2"), {"out/a b.o", "d/two.o"})
        for words, name in ((one, "out/a b.o"), (shlex.split(two), "d/two.o")):
            built, path = self.read(name), self.top / name
            path.unlink()
            subprocess.run(words, cwd=path.parent, check=True)
            self.assertEqual(path.read_bytes(), built)
        self.assertEqual(self.redo("redo-ifchange", "all"), [])
        self.write("a.h", "#define ONE 11\n")
        self.assertEqual(self.files_built("redo-ifchange", "all"), {"out/a b.o", "d/two.o"})
        self.write("d/two.c", "int two;\n")
        self.assertEqual(self.files_built("redo-ifchange", "all"), {"d/two.o"})

    def test_what_is_no_database(self) -> None:
        entry = {"directory": str(self.top), "file": "x.c", "command": "gcc -c x.c -o x.o"}
        for entries, wanted in (
            ([], "no command"),
            ({}, "no list of commands"),
            ([1], "no list of commands"),
            ([entry | {"command": "gcc -c x.c"}], "no command, file or -o: 'x.c'"),
            ([entry | {"command": "gcc 'x"}], "No closing quotation"),
            ([entry | {"command": 1}], "command is no text: '1'"),
            ([entry | {"arguments": [1]}], "arguments are no list of texts"),
            ([entry | {"directory": "/nowhere"}], "/nowhere: no folder"),
            ([entry | {"command": "gcc -c x.c -o ../x.o"}], "../x.o: it is outside"),
            ([entry, entry | {"command": "gcc -g -c x.c -o x.o"}], "x.o: two commands build it"),
        ):
            with self.subTest(wanted):
                self.database(entries)
                errors = self.record("compdb", ".", "--rules", status=2)
                self.assertIn(wanted, errors)
                self.assertEqual(errors.count("\n"), 1)
        self.write("compile_commands.json", "[" * 100_000)
        self.assertIn("compile_commands.json", self.record("compdb", ".", "--rules", status=2))


if __name__ == "__main__":
    unittest.main()
