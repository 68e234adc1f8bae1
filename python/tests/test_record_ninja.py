"""`redodb record ninja`: what is out of date is what `ninja -n` would build."""

import os
import shlex
import struct
import unittest

import beside  # noqa: F401
from redodb.record.graph import RecordError
from redodb.record.manifest import read_manifest
from redodb.record.ninja_logs import read_build_log, read_deps_log
from trees import AgreeTest, has_tools, record

MANIFEST = """\
# a comment
flags = -O0 $
    -Wall
rule cc
  command = gcc -MD -MF $out.d $flags -c $in -o $out
  description = $out
  depfile = $out.d
  deps = gcc
rule cc_without_log
  command = gcc -MD -MF $out.d $flags -c $in -o $out
  description = $out
  depfile = $out.d
rule generate
  command = cp $in $out.new; if cmp -s $out.new $out; then rm $out.new; else mv $out.new $out; fi
  description = $out
  restat = 1
rule pair
  command = cp $in left.txt && cp $in right.txt
  description = $out
include more.ninja
subninja inner.ninja
build version.h: generate version.txt
build main.o: cc main.c || version.h
build a$ b.o: cc a$ b.c
build ${prefix}util.o: cc_without_log ${prefix}util.c
  flags = -O1
build left.txt right.txt: pair pair.txt
build app: link main.o a$ b.o ${prefix}util.o | link.txt || left.txt
build all: phony app right.txt inner.txt
default all
"""
DYNDEP = """\
line = build out.txt | more.txt$: dyndep | found.txt
rule scan
  command = printf 'ninja_dyndep_version = 1\\n%s\\n' "$line" >$out
  description = $out
rule copy
  command = cat given.txt found.txt >$out && touch more.txt
  description = $out
  dyndep = out.dd
build out.dd: scan given.txt
build out.txt: copy given.txt || out.dd
"""
FILES = {
    "build.ninja": MANIFEST,
    "more.ninja": """\
prefix = ./part/
rule link
  command = gcc $in -o $out
  description = $out
""",
    "inner.ninja": """\
rule copy
  command = cp $in $out
  description = $out
build inner.txt: copy link.txt
""",
    "main.c": '#include "version.h"\n#include "util.h"\nint main(void) { return util(); }\n',
    "a b.c": '#include "a b.h"\nint b;\n',
    "a b.h": "\n",
    "util.h": "int util(void);\n",
    "part/util.c": '#include "../util.h"\nint util(void) { return 0; }\n',
    "version.txt": "#define VERSION 0\n",
    "pair.txt": "pair\n",
    "link.txt": "link\n",
}


@unittest.skipUnless(has_tools("ninja", "gcc"), "wants ninja, gcc and redodb-live")
class RecordNinja(AgreeTest):
    files = FILES
    phony = {"all"}

    def built(self) -> None:
        self.run_tool("ninja")
        self.assertIn("no work to do", self.run_tool("ninja"))

    def wanted(self) -> set[str]:
        """Return what `ninja -n` would build."""
        lines = [line.partition("] ") for line in self.run_tool("ninja", "-n").splitlines()]
        return {
            os.path.normpath(name)
            for begin, _, names in lines
            if begin[:1] == "["
            for name in shlex.split(names)
        }

    def test_each_edited_source(self) -> None:
        self.built()
        lines = self.recorded("ninja")
        self.assertEqual(self.assert_agrees(lines), set())
        found = {}
        for name in FILES:
            if not name.endswith(".ninja"):
                with self.edited(name):
                    found[name] = self.assert_agrees(lines)
                with self.touched(name):  # once recorded, contents count
                    self.assertEqual(self.out_of_date(lines) - self.phony, set())
        self.assertEqual(found["util.h"], {"main.o", "part/util.o", "app"})
        self.assertEqual(found["pair.txt"], {"left.txt", "right.txt"})
        self.assertEqual(found["a b.h"], {"a b.o", "app"})

    def test_each_touched_source_before_the_record(self) -> None:
        self.built()
        for name in FILES:
            if not name.endswith(".ninja"):
                with self.touched(name):
                    self.assertNotEqual(self.assert_agrees(self.recorded("ninja")), set(), name)

    def test_reasons_are_the_newer_inputs(self) -> None:
        self.built()
        with self.touched("util.h"):
            lines = self.recorded("ninja")
        self.assertEqual(lines[0], "1 file util.h before => ok")
        self.assertLess(
            lines.index(next(line for line in lines if " ifchange main.o " in line)),
            next(at for at, line in enumerate(lines) if line.startswith("1 file util.h b2-")),
        )

    def test_output_that_was_generated_again_and_is_the_same(self) -> None:
        self.built()
        with self.touched("version.txt"):
            self.assertIn("version.h", self.wanted())
            self.run_tool("ninja")
            lines = self.recorded("ninja")
            self.assertEqual(self.assert_agrees(lines), set())
            self.assertEqual(sum(line.startswith("1 done version.h ") for line in lines), 2)
        self.write("version.txt", "#define VERSION 1\n")
        with self.touched("version.txt"):
            self.assertIn("main.o", self.assert_agrees(lines))

    def test_name_that_has_order_only_inputs_alone(self) -> None:
        names = "build names: phony || version.h\nbuild named.txt: link_text pair.txt | names\n"
        rule = "rule link_text\n  command = cp $in $out\n  description = $out\n"
        self.write(
            "build.ninja", MANIFEST.replace("default all", rule + names + "default named.txt")
        )
        self.built()
        self.assertEqual(self.out_of_date(self.recorded("ninja")) & {"named.txt", "names"}, set())

    def test_one_of_two_outputs_is_old(self) -> None:
        self.built()
        self.age("left.txt", 200)
        self.assertLessEqual({"left.txt", "right.txt"}, self.assert_agrees(self.recorded("ninja")))

    def test_removed_files(self) -> None:
        self.built()
        lines = self.recorded("ninja")
        for name in ("main.o", "version.h", "app"):
            with self.subTest(name):
                os.rename(self.top / name, self.top / "away")
                self.assertIn(name, self.assert_agrees(lines))
                self.assertIn(name, self.assert_agrees(self.recorded("ninja")))
                os.rename(self.top / "away", self.top / name)

    def test_removed_output_of_two(self) -> None:
        self.built()
        lines = self.recorded("ninja")
        os.unlink(self.top / "right.txt")
        self.assertLessEqual({"left.txt", "right.txt"}, self.assert_agrees(self.recorded("ninja")))
        # the database knows no build of two targets: once recorded, each is judged alone
        self.assertEqual(self.out_of_date(lines) - {"all"}, {"right.txt"})

    def test_removed_header_that_only_the_deps_log_names(self) -> None:
        self.built()
        os.unlink(self.top / "a b.h")
        self.assertIn("a b.o", self.assert_agrees(self.recorded("ninja")))

    def test_lost_logs(self) -> None:
        self.built()
        for name in (".ninja_log", ".ninja_deps", "part/util.o.d"):
            with self.subTest(name):
                os.rename(self.top / name, self.top / "away")
                lines = self.recorded("ninja")
                self.assertNotEqual(self.assert_agrees(lines), set())
                os.rename(self.top / "away", self.top / name)

    def test_tree_that_was_never_built(self) -> None:
        lines = self.recorded("ninja")
        self.assertEqual(self.assert_agrees(lines), self.wanted())
        self.assertEqual(sum(" failed " in line for line in lines), 8)

    def test_torn_deps_log(self) -> None:
        self.built()
        whole = read_deps_log(os.fsencode(self.top / ".ninja_deps"))
        with open(self.top / ".ninja_deps", "ab") as log:
            log.write(struct.pack("<I", 0x80000000 | 64) + b"torn")
        self.assertEqual(read_deps_log(os.fsencode(self.top / ".ninja_deps")), whole)
        self.assertEqual(self.out_of_date(self.recorded("ninja")), set())

    def test_deps_log_says_what_ninja_says(self) -> None:
        self.built()
        told: dict[str, list[str]] = {}
        for line in self.run_tool("ninja", "-t", "deps").splitlines():
            if line and not line.startswith(" "):
                inputs: list[str] = []
                told[line.split(": #deps")[0]] = inputs
            elif line:
                inputs.append(line.strip())
        read = read_deps_log(os.fsencode(self.top / ".ninja_deps"))
        self.assertEqual(
            {
                os.fsdecode(name): list(map(os.fsdecode, found.inputs))
                for name, found in read.items()
            },
            told,
        )
        self.assertEqual(set(told), {"main.o", "a b.o"})

    def test_logs_in_a_folder_of_their_own(self) -> None:
        self.write("build.ninja", "logs = kept\nbuilddir = $logs/here\n" + MANIFEST)
        self.built()
        self.assertTrue((self.top / "kept/here/.ninja_deps").exists())
        lines = self.recorded("ninja")
        with self.edited("a b.h"):
            self.assertEqual(self.assert_agrees(lines), {"a b.o", "app"})

    def test_dyndep_file(self) -> None:
        self.write("build.ninja", DYNDEP)
        for name in ("given.txt", "found.txt"):
            self.write(name, "\n")
            self.age(name, 100)
        self.built()
        lines = self.recorded("ninja")
        self.assertEqual(self.assert_agrees(lines), set())
        both = {"out.txt", "more.txt"}
        # ninja names explicit outputs alone
        with self.edited("found.txt"):
            self.assertEqual(self.wanted(), {"out.txt"})
            self.assertEqual(self.out_of_date(lines), both)
        os.unlink(self.top / "more.txt")
        self.assertEqual(self.wanted(), {"out.txt"})
        self.assertEqual(self.out_of_date(self.recorded("ninja")), both)

    def test_edges_are_those_of_ninja(self) -> None:
        edges = read_manifest(os.fsencode(self.top)).edges
        told = dict(
            line.rsplit(": ", 1)
            for line in self.run_tool("ninja", "-t", "targets", "all").splitlines()
        )
        found = {
            os.fsdecode(output): edge.rule_name.decode()
            for edge in edges
            for output in edge.outputs
        }
        self.assertEqual(found, told)

    def test_deps_log_of_another_version(self) -> None:
        self.built()
        log = self.top / ".ninja_deps"
        log.write_bytes(b"# ninjadeps\n" + struct.pack("<i", 3))
        with self.assertRaisesRegex(RecordError, "version 4"):
            read_deps_log(os.fsencode(log))
        status, out, errors = record("ninja", str(self.top))
        self.assertEqual((status, out), (2, ""))
        self.assertRegex(errors, r"\Aredodb record: .*no deps log of version 4\n\Z")

    def test_build_log_of_another_version(self) -> None:
        log = self.write(".ninja_log", "# ninja log v4\n")
        with self.assertRaisesRegex(RecordError, "no build log of a version from 5 to 7"):
            read_build_log(os.fsencode(log))

    def test_no_manifest(self) -> None:
        os.unlink(self.top / "build.ninja")
        status, out, errors = record("ninja", str(self.top))
        self.assertEqual(
            (status, out, errors),
            (2, "", "redodb record: build.ninja: No such file or directory\n"),
        )

    def test_statement_that_is_none(self) -> None:
        for text in ("build out\n", "rule cc\n  command gcc\n", "nothing\n"):
            with self.subTest(text):
                self.write("build.ninja", text)
                status, out, errors = record("ninja", str(self.top))
                self.assertEqual((status, out, errors.count("\n")), (2, "", 1))
                self.assertRegex(errors, "no (build )?statement")


if __name__ == "__main__":
    unittest.main()
