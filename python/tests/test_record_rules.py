"""`redodb record ninja --rules`: redo builds what ninja builds, and no more."""

import os
import shutil
import subprocess
import time
import unittest
from pathlib import Path

import beside  # noqa: F401
from ruled_trees import HAS_REDO, SMALL, RulesTest
from trees import has_tools

MANIFEST = """\
flags = -O1 -Wall
rule cc
  command = gcc -MD -MP -MF $out.d $flags -c $in -o $out
  depfile = $out.d
  deps = gcc
rule cc_kept
  command = gcc -MD -MF $depfile $flags -c $in -o $out
  depfile = kept/$out.dep
rule archive
  command = rm -f $out && ar rcD $out @$out.rsp
  rspfile = $out.rsp
  rspfile_content = $in
rule link
  command = : && gcc $in -o $target && :
rule generate
  command = printf '#define VERSION "%s"\\n' "$$(tr -d '\\n' <$in)" >$out.new && mv $out.new $out
  restat = 1
rule pair
  command = cp $in left.txt && tr a-z A-Z <$in >sub/right.txt
  pool = narrow
rule join
  command = cat $in >$out
rule always
  command = date +%s%N >$out
rule none
  command = echo ran >>ran.txt
pool narrow
  depth = 1
build version.h: generate version.txt
build main.o: cc main.c || version.h
build sub/one$ $$5$ a.o: cc sub/one$ $$5$ a.c
build kept.o: cc_kept kept.c || names
build names: phony version.h left.txt
build lib.a: archive sub/one$ $$5$ a.o kept.o
build app: link main.o lib.a
  target = app
build left.txt | sub/right.txt: pair pair.txt
build both$ it's.txt: join left.txt sub/right.txt | pairs
build pairs: phony left.txt sub/right.txt
build right2.txt: join sub/right.txt
build all: phony app both$ it's.txt right2.txt
build none: none pair.txt
build never: always || pair.txt
build later: phony never
default all
"""
FILES = {
    "build.ninja": MANIFEST,
    "main.c": '#include "version.h"\n#include "util.h"\n'
    "int main(void) { return util(VERSION); }\n",
    "kept.c": '#include "version.h"\nconst char *kept = VERSION;\n',
    "sub/one $5 a.c": '#include "../util.h"\n#include "one $5 a.h"\n'
    "int util(const char *text) { return text[0] + LESS; }\n",
    "sub/one $5 a.h": "#define LESS -49\n",
    "util.h": "int util(const char *text);\n",
    "version.txt": "1\n",
    "pair.txt": "pair\n",
    "kept/README": "where a depfile goes\n",
}
EDITS = {
    "util.h": "static const char edited[] __attribute__((used)) = __FILE__;\n",
    "sub/one $5 a.h": "#undef LESS\n#define LESS -48\n",
    "kept.c": "int more = 1;\n",
    "version.txt": "more\n",
    "pair.txt": "more\n",
}
OUTPUTS = {
    *(
        "app",
        "both it's.txt",
        "kept.o",
        "left.txt",
        "lib.a",
        "main.o",
        "right2.txt",
        "sub/right.txt",
    ),
    *("sub/one $5 a.o", "version.h"),
}
ALONG = {"sub/right.txt"}
"""What comes along with the first output of an edge."""
OF_SMALL = {"x.txt", "y.txt"}


def by_ninja(folder: Path, *words: str) -> set[str]:
    """Build by ninja, and return the outputs of what it ran."""
    before = {path: path.stat().st_mtime_ns for path in folder.rglob("*") if path.is_file()}
    subprocess.run(["ninja", *words], cwd=folder, check=True, capture_output=True)
    files = [path for path in folder.rglob("*") if path.is_file() and path.name[0] != "."]
    return {
        str(path.relative_to(folder))
        for path in files
        if before.get(path) != path.stat().st_mtime_ns
    }


@unittest.skipUnless(
    HAS_REDO and has_tools("ninja", "gcc"), "wants redo, ninja, gcc and redodb-live"
)
class RulesOfNinja(RulesTest):
    def setUp(self) -> None:
        super().setUp()
        self.other = self.top / "other"
        self.top = self.top / "tree"
        self.write_all(FILES)
        shutil.copytree(self.top, self.other)

    def assert_same(self) -> None:
        for name in OUTPUTS:
            self.assertEqual(self.read(name), (self.other / name).read_bytes(), name)

    def test_builds_what_ninja_builds(self) -> None:
        by_ninja(self.other)
        self.assertEqual(self.record("ninja", ".", "--rules"), "")
        self.assertEqual(self.files_built("redo"), OUTPUTS - ALONG)
        self.assert_same()
        self.assertEqual(self.redo("redo-ifchange", "all"), [])
        left = {path.name for path in self.top.rglob("*") if ".redo." in path.name}
        self.assertEqual(left, set())
        self.assertFalse((self.top / "lib.a.rsp").exists())
        self.assertFalse((self.top / "main.o.d").exists())
        self.assertTrue((self.top / "kept/kept.o.dep").exists())

    def edit(self, name: str) -> None:
        for top in (self.top, self.other):
            path = top / name
            time.sleep(0.02)  # ninja compares times
            path.write_text(path.read_text() + EDITS[name])

    def assert_follows(self) -> None:
        """Each edit has redo build what it has ninja build."""
        found = {}
        for name in EDITS:
            with self.subTest(name):
                self.edit(name)
                wanted = by_ninja(self.other) & OUTPUTS - ALONG
                found[name] = self.files_built("redo-ifchange", "all")
                self.assertEqual(found[name], wanted)
                self.assert_same()
                self.assertEqual(self.redo("redo-ifchange", "all"), [])
        self.assertEqual(found["pair.txt"], {"left.txt", "both it's.txt", "right2.txt"})
        self.assertEqual(found["version.txt"], {"version.h", "main.o", "kept.o", "lib.a", "app"})
        self.assertEqual(found["util.h"], {"main.o", "sub/one $5 a.o", "lib.a", "app"})

    def test_each_edit(self) -> None:
        by_ninja(self.other)
        self.record("ninja", ".", "--rules")
        self.redo("redo")
        self.assert_follows()

    def test_goes_on_from_what_ninja_built(self) -> None:
        by_ninja(self.other)
        by_ninja(self.top)
        self.assertEqual(self.record("ninja", ".", "--rules", "--log", ".redo/log"), "")
        self.assertEqual(self.redo("redo-ifchange", "all"), [])
        self.assertEqual(self.redo("redo-ood"), [])
        self.assert_follows()


@unittest.skipUnless(HAS_REDO and has_tools("gcc"), "wants redo, gcc and redodb-live")
class RulesOfSmallTrees(RulesTest):
    """What an edge may have, without ninja."""

    def manifest(self, text: str) -> None:
        self.write("build.ninja", text)
        self.write("in.txt", "one\n")

    def test_without_ninja_and_all(self) -> None:
        self.manifest(SMALL + "build y.txt: copy x.txt\n")
        self.record("ninja", ".", "--rules")
        self.assertEqual(self.redo("redo"), ["all", "y.txt", "x.txt"])
        self.assertEqual(self.read("y.txt"), b"one\n")

    def test_default_without_all(self) -> None:
        self.manifest(SMALL + "build y.txt: copy in.txt\ndefault x.txt\n")
        self.record("ninja", ".", "--rules")
        self.assertEqual(self.redo("redo"), ["all", "x.txt"])

    def test_order_only(self) -> None:
        self.manifest(
            SMALL + "build y.txt: copy in2.txt || x.txt always\nbuild always: phony\n"
            "build z.txt: copy in2.txt | names\nbuild names: phony in2.txt || x.txt\n"
        )
        self.write("in2.txt", "one\n")
        self.record("ninja", ".", "--rules")
        built = self.redo("redo", "y.txt", "z.txt")
        self.assertLess(built.index("x.txt"), len(built))
        self.write("in.txt", "other\n")
        self.assertEqual(self.files_built("redo-ifchange", "y.txt", "z.txt"), {"x.txt"})
        self.assertEqual(self.read("x.txt"), b"other\n")

    def test_name_of_nothing(self) -> None:
        names = "build all: phony part x.txt\nbuild part: phony nothing\nbuild nothing: phony\n"
        self.manifest(SMALL + names)
        self.record("ninja", ".", "--rules")
        self.assertEqual(self.redo("redo"), ["all", "part", "x.txt"])
        self.assertEqual(self.redo("redo-ifchange", "all"), [])
        self.assertEqual(self.redo("redo", "nothing"), ["nothing"])
        shutil.rmtree(self.top / ".redo")
        self.write(".ninja_log", "# ninja log v5\n0\t1\t0\tx.txt\t7\n")
        self.record("ninja", ".", "--rules", "--log", ".redo/log")
        self.assertEqual(self.redo("redo-ifchange", "all"), [])

    def pair(self) -> None:
        """Write a manifest with a header that comes along with a source, as from bison."""
        slow = "sleep 0.1; (echo '#include \"p.h\"'; cat $in) >p.c; cp $in p.h; sleep 0.1"
        self.manifest(
            f"rule gen\n  command = {slow}\n"
            "rule cc\n  command = gcc -MD -MF $out.d -c $in -o $out\n"
            "  depfile = $out.d\n  deps = gcc\n"
            "build p.c | p.h: gen p.y\nbuild m.o: cc m.c || p.h\nbuild h.txt: copy p.h\n"
            "rule copy\n  command = cp $in $out\nbuild all: phony m.o h.txt\n"
        )
        self.write("p.y", "extern int one;\n")
        self.write("m.c", '#include "p.h"\nint main(void) { return sizeof one; }\n')

    def test_what_comes_along_is_built_once(self) -> None:
        self.pair()
        self.record("ninja", ".", "--rules")
        self.assertEqual(self.files_built("redo"), {"m.o", "p.c", "h.txt"})
        self.assertEqual(self.redo("redo-ifchange", "all"), [])
        self.write("p.y", "extern char one;\n")
        self.assertEqual(self.files_built("redo-ifchange", "all"), {"m.o", "p.c", "h.txt"})
        self.assertEqual(self.read("h.txt"), b"extern char one;\n")
        self.assertEqual(self.redo("redo-ifchange", "all"), [])

    def test_what_came_along_and_is_gone(self) -> None:
        self.pair()
        self.record("ninja", ".", "--rules")
        self.redo("redo")
        (self.top / "p.h").unlink()
        self.redo("redo-ifchange", "all")
        self.assertEqual(self.read("p.h"), b"extern int one;\n")
        self.redo("redo-ifchange", "all")
        self.assertEqual(self.redo("redo-ifchange", "all"), [])

    def test_always(self) -> None:
        self.manifest(SMALL + "build y.txt: copy x.txt | FORCE\nbuild FORCE: phony\n")
        self.record("ninja", ".", "--rules")
        self.redo("redo", "y.txt")
        self.assertEqual(self.files_built("redo-ifchange", "y.txt"), {"y.txt"})

    def test_command_that_makes_no_file(self) -> None:
        self.manifest("rule r\n  command = echo $out >>ran; exit 0\nbuild run: r in.txt\n")
        self.record("ninja", ".", "--rules")
        for times in (1, 2):
            self.assertEqual(self.redo("redo-ifchange", "run"), ["run"])
            self.assertEqual(self.read("ran"), b"run\n" * times)

    def test_command_that_fails(self) -> None:
        self.manifest("rule r\n  command = echo half >$out; exit 3\nbuild x: r in.txt\n")
        self.record("ninja", ".", "--rules")
        for _ in range(2):
            self.assertEqual(self.redo("redo-ifchange", "x", status=1), ["x"])

    def test_command_is_as_in_ninja(self) -> None:
        command = """false; a="$$1$$3"; set -- "it's" 'b c'; printf '%s|' "$$a" "$$@" >$out # )"""
        self.manifest(f"rule r\n  command = {command}\nbuild d/x.txt: r in.txt\n")
        self.record("ninja", ".", "--rules")
        self.redo("redo", "d/x.txt")
        self.assertEqual(self.read("d/x.txt"), b"|it's|b c|")

    def test_output_that_is_a_link(self) -> None:
        self.manifest(SMALL + "rule link\n  command = ln -sf $in $out\nbuild link: link x.txt\n")
        self.record("ninja", ".", "--rules")
        self.redo("redo")
        self.assertEqual(os.readlink(self.top / "link"), "x.txt")
        self.assertEqual(self.redo("redo-ifchange", "all"), [])
        self.write("in.txt", "other\n")
        self.assertEqual(self.redo("redo-ifchange", "all"), ["x.txt", "link.made", "all"])

    def test_names_that_look_like_options(self) -> None:
        self.manifest(
            "rule copy\n  command = cp -- $in $out\n"
            "build -k: copy -x.txt\nbuild -y.txt: copy -k\n"
        )
        self.write("-x.txt", "x\n")
        self.record("ninja", ".", "--rules")
        self.redo("redo", "./-y.txt")
        self.assertEqual(self.read("-y.txt"), b"x\n")

    def test_one_output_twice(self) -> None:
        there = f"there = {self.top}/\n"
        names = "build all | ${there}all: phony x.txt\n"
        self.manifest(there + SMALL.replace("x.txt:", "x.txt | ${there}x.txt:") + names)
        self.record("ninja", ".", "--rules")
        self.assertEqual(self.redo("redo"), ["all", "x.txt"])
        self.assertEqual(self.read("x.txt"), b"one\n")
        self.assertFalse((self.top / "x.txt.made.do").exists())

    def test_what_was_generated_is_newer(self) -> None:
        self.manifest(
            SMALL + "rule again\n  command = false\n  generator = 1\n"
            "build build.ninja: again lists.txt\nbuild lists.txt: phony\n"
        )
        self.write("lists.txt", "one\n")
        self.age("lists.txt", 100)
        self.record("ninja", ".", "--rules")
        self.assertEqual(self.files_built("redo"), {"x.txt"})
        self.assertEqual(self.redo("redo-ifchange", "all"), [])
        self.write("lists.txt", "other\n")
        self.age("lists.txt", -100)
        self.redo("redo-ifchange", "all", status=1)
        self.age("build.ninja", -200)
        self.record("ninja", ".", "--rules")
        self.redo("redo-ifchange", "all")

    def test_depfile_with_names_of_all_kinds(self) -> None:
        text = "x.o y.o: in.txt \\\n  a\\ b.h c\\#.h \\\n d$$.h ./e:f.h\n\na\\ b.h:\nin.txt:\n"
        self.manifest(
            "rule r\n  command = cp deps $depfile && cp in.txt $out\n  depfile = $out.d\n"
            "build x.o: r in.txt\n"
        )
        self.write("deps", text)
        names = ["a b.h", "c#.h", "d$.h", "e:f.h"]
        for name in names:
            self.write(name, "one\n")
        self.record("ninja", ".", "--rules")
        self.redo("redo", "x.o")
        for name in names:
            self.write(name, "other\n")
            self.assertEqual(self.redo("redo-ifchange", "x.o"), ["x.o"], name)
        self.assertEqual(self.redo("redo-ifchange", "x.o"), [])

    def test_a_changed_command_builds_its_target(self) -> None:
        for log in ((), ("--log", ".redo/log")):
            self.manifest(SMALL + "build y.txt: copy in.txt\n")
            if log:
                self.write("x.txt", "one\n")
                self.write("y.txt", "one\n")
                stamps = "".join(f"0\t1\t0\t{name}.txt\t{7:x}\n" for name in "xy")
                self.write(".ninja_log", "# ninja log v5\n" + stamps)
            self.record("ninja", ".", "--rules", *log)
            self.assertEqual(self.files_built("redo-ifchange", "all"), set() if log else OF_SMALL)
            changed = "  command = cat $in $in >$out\n"
            self.manifest(SMALL + "rule twice\n" + changed + "build y.txt: twice in.txt\n")
            self.record("ninja", ".", "--rules")
            self.assertEqual(self.files_built("redo-ifchange", "all"), {"y.txt"})
            shutil.rmtree(self.top / ".redo")
            for name in OF_SMALL:
                (self.top / name).unlink()


if __name__ == "__main__":
    unittest.main()
