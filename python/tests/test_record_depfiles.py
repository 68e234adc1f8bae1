"""`redodb record depfiles`, and how depfiles are read: gcc says what a depfile is."""

import os
import shutil
import unittest
import unittest.mock

import beside  # noqa: F401
from redodb.places import find_program
from redodb.record.depfile import read_rules
from trees import TreeTest, has_tools, record

ODD = [
    "a:b.h",
    "a#b.h",
    "a$b.h",
    "a\\b.h",
    "a\\ b.h",
    "a%b.h",
    "a'b.h",
    "c  d.h",
    "a=b.h",
    "a\\#b.h",
    "e[f]*.h",
]


class ReadRules(TreeTest):
    @unittest.skipUnless(shutil.which("gcc"), "wants gcc")
    def test_names_as_gcc_writes_them(self) -> None:
        for name in ODD:
            self.write(name, "\n")
        self.write("odd.c", "".join(f'#include "{name}"\n' for name in ODD))
        self.run_tool("gcc", "-w", "-MMD", "-MP", "-c", "odd.c")
        rules = read_rules((self.top / "odd.d").read_bytes())
        self.assertEqual(rules, {b"odd.o": [b"odd.c", *map(os.fsencode, ODD)]})

    def test_continued_lines(self) -> None:
        for text in (b"a.o: a.c \\\n b.h\n", b"a.o:\\\n a.c\\\n b.h", b"a.o : a.c \\\r\n b.h\r\n"):
            with self.subTest(text):
                self.assertEqual(read_rules(text), {b"a.o": [b"a.c", b"b.h"]})

    def test_several_targets_and_rules(self) -> None:
        text = b"# a comment: none\na.o a.d: a.c\na.o: b.h\n\nb.h:\n"
        self.assertEqual(read_rules(text), {b"a.o": [b"a.c", b"b.h"], b"a.d": [b"a.c"]})

    def test_no_rule(self) -> None:
        for text in (b"", b"\n", b"a.o a.c\n", b"a.o:\n", b": a.c\n"):
            with self.subTest(text):
                self.assertEqual(read_rules(text), {})


@unittest.skipUnless(has_tools("gcc"), "wants gcc and redodb-live")
class RecordDepfiles(TreeTest):
    def setUp(self) -> None:
        super().setUp()
        self.write("one.c", '#include "h/a.h"\n#include "b c.h"\n')
        self.write("part/two.c", '#include "../h/../h/a.h"\n')
        self.write("h/a.h", "\n")
        self.write("b c.h", "\n")
        self.write(".hidden/three.d", "three.o: one.c\n")
        self.write("out/empty.d", "")
        self.run_tool("gcc", "-MMD", "-c", "one.c", "-o", "out/one.o")
        self.run_tool("gcc", "-MMD", "-c", "part/two.c", "-o", "out/two.o")

    def test_each_edited_or_touched_file(self) -> None:
        lines = self.recorded("depfiles")
        self.assertEqual(self.out_of_date(lines), set())
        for name, wanted in (
            ("one.c", {"out/one.o"}),
            ("part/two.c", {"out/two.o"}),
            ("b c.h", {"out/one.o"}),
            ("h/a.h", {"out/one.o", "out/two.o"}),
        ):
            with self.subTest(name):
                with self.edited(name):
                    self.assertEqual(self.out_of_date(lines), wanted)
                    self.assertEqual(self.out_of_date(self.recorded("depfiles")), wanted)
                with self.touched(name):
                    self.assertEqual(self.out_of_date(self.recorded("depfiles")), wanted)
                    # once recorded, contents count
                    self.assertEqual(self.out_of_date(lines), set())

    def test_one_file_has_one_name(self) -> None:
        names = {
            word
            for line in self.recorded("depfiles")
            if " ifchange " in line
            for word in line.partition(" => ")[0].split(" ")[2:]
        }
        self.assertEqual(
            names, {"out/one.o", "out/two.o", "one.c", "part/two.c", "h/a.h", "b%20c.h"}
        )

    def test_missing_object(self) -> None:
        os.unlink(self.top / "out/one.o")
        self.assertEqual(self.out_of_date(self.recorded("depfiles")), {"out/one.o"})

    def test_header_that_went(self) -> None:
        os.unlink(self.top / "h/a.h")
        self.assertEqual(self.out_of_date(self.recorded("depfiles")), {"out/one.o", "out/two.o"})

    def test_header_behind_a_link(self) -> None:
        os.symlink("h", self.top / "link")
        self.write("three.c", '#include "link/a.h"\n')
        self.run_tool("gcc", "-MMD", "-c", "three.c", "-o", "out/three.o")
        lines = self.recorded("depfiles")
        self.assertIn("1 ifchange out/three.o three.c h/a.h => ok", lines)

    def test_many_inputs_stand_in_several_lines(self) -> None:
        headers = [f"many/{'x' * 180}{at}.h" for at in range(150)]
        for name in headers:
            self.write(name, "\n")
        self.write("many.c", "".join(f'#include "{name}"\n' for name in headers))
        self.run_tool("gcc", "-MMD", "-c", "many.c", "-o", "out/many.o")
        lines = [
            line for line in self.recorded("depfiles") if line.startswith("1 ifchange out/many.o ")
        ]
        self.assertEqual(
            [name for line in lines for name in line.partition(" => ")[0].split(" ")[3:]],
            ["many.c", *headers],
        )
        self.assertTrue(all(len(line.partition(" => ")[0]) - 2 <= 8192 for line in lines))

    def test_no_depfile(self) -> None:
        folder = self.top / "h"
        status, out, errors = record("depfiles", str(folder))
        self.assertEqual(
            (status, out, errors),
            (2, "", f"redodb record: {folder}: no depfile with a rule below it\n"),
        )

    def test_name_that_is_too_long(self) -> None:
        self.write("out/long.d", f"long.o: {'d/' * 130}x.h\n")
        status, out, errors = record("depfiles", str(self.top))
        self.assertEqual((status, out, errors.count("\n")), (2, "", 1))
        self.assertIn("263 bytes, over 255", errors)

    def test_more_names_than_a_replay_takes(self) -> None:
        headers = [f"h/{at}.h" for at in range(65_536)]
        self.write("large/many.d", f"many.o: {' '.join(headers)}\n")
        large = str(self.top / "large")
        wanted = "redodb record: the history has 65537 names, over 65536\n"
        self.assertEqual(record("depfiles", large), (2, "", wanted))
        log = self.top / "log"
        self.assertEqual(record("depfiles", large, "--log", str(log)), (0, "", ""))
        self.assertIn("many.o", log.read_text())

    def test_name_that_the_database_does_not_take(self) -> None:
        self.write("out/many.d", "many.o: h/1.h h/2.h\n")
        program = os.fsdecode(find_program() or b"")
        answer = "s/^1 lock .*many.o .*/1 fault too-many-names/"
        self.write("database", f"#!/bin/sh\n'{program}' | sed -u '{answer}'\n")
        (self.top / "database").chmod(0o755)
        chosen = {"REDODB_LIVE": str(self.top / "database")}
        with unittest.mock.patch.dict(os.environ, chosen):
            status, out, errors = record("depfiles", str(self.top))
        wanted = "redodb record: the database doesn't take the tree: 1 fault too-many-names\n"
        self.assertEqual((status, out, errors), (2, "", wanted))


if __name__ == "__main__":
    unittest.main()
