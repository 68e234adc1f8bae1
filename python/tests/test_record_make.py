"""`redodb record make`: what is out of date is what `make -n` would build."""

import os
import re
import unittest

import beside  # noqa: F401
from trees import AgreeTest, has_tools, record

MAKEFILE = """\
CFLAGS = -MMD -MP
.PHONY: all clean
all: app sub two.x
app: main.o util.o a\\ b.o | out
\tgcc -o $@ main.o util.o 'a b.o' # $@ is built
main.o: main.c version.h
\tgcc $(CFLAGS) -c -o $@ main.c # $@ is built
util.o: util.c
\tgcc $(CFLAGS) -c -o $@ util.c # $@ is built
a\\ b.o: a\\ b.c
\tgcc $(CFLAGS) -c -o '$@' '$<' # $@ is built
version.h: version.txt
\tcp version.txt $@ # $@ is built
%.x %.y: %.z
\tcp $< $*.x; cp $< $*.y # $*.x $*.y is built
out:
\tmkdir out # out is built
sub:
\t+@$(MAKE) -C inner
clean:
\trm *.o
aside: main.c
\tcp main.c aside # $@ is built
.PHONY: sub
-include main.d util.d a\\ b.d
"""
FILES = {
    "Makefile": MAKEFILE,
    "main.c": '#include "version.h"\n#include "util.h"\nint main(void) { return util(); }\n',
    "a b.c": '#include "a b.h"\nint b;\n',
    "a b.h": "\n",
    "util.h": "int util(void);\n",
    "util.c": '#include "util.h"\nint util(void) { return 0; }\n',
    "version.txt": "#define VERSION 0\n",
    "two.z": "two\n",
    "inner/Makefile": "result: given ../util.h\n\tcp given result # inner/result is built\n",
    "inner/given": "given\n",
}


@unittest.skipUnless(has_tools("make", "gcc"), "wants make, gcc and redodb-live")
class RecordMake(AgreeTest):
    files = FILES
    phony = {"all", "sub"}

    def built(self) -> None:
        self.run_tool("make")
        self.assertEqual(self.wanted(), set())

    def wanted(self) -> set[str]:
        """Return what `make -n` would build."""
        lines = re.findall("# (.*) is built$", self.run_tool("make", "-n"), re.M)
        return {name for line in lines for name in ([line] if line == "a b.o" else line.split(" "))}

    def test_each_edited_or_touched_source(self) -> None:
        self.built()
        lines = self.recorded("make")
        self.assertEqual(self.assert_agrees(lines), set())
        found = {}
        for name in FILES:
            if not name.endswith("Makefile"):
                with self.edited(name):
                    found[name] = self.assert_agrees(lines)
                    self.assertEqual(self.assert_agrees(self.recorded("make")), found[name])
                with self.touched(name):
                    self.assertEqual(self.assert_agrees(self.recorded("make")), found[name])
                    # once recorded, contents count
                    self.assertEqual(self.out_of_date(lines) - self.phony, set())
        self.assertEqual(found["util.h"], {"main.o", "util.o", "app", "inner/result"})
        self.assertEqual(found["a b.h"], {"a b.o", "app"})
        self.assertEqual(found["version.txt"], {"version.h", "main.o", "app"})
        self.assertEqual(found["two.z"], {"two.x", "two.y"})

    def test_order_only_input_makes_nothing_out_of_date(self) -> None:
        self.built()
        lines = self.recorded("make")
        with self.touched("out"):
            self.assertEqual(self.assert_agrees(lines), set())

    def test_removed_files(self) -> None:
        self.built()
        lines = self.recorded("make")
        for name in ("main.o", "version.h", "app", "inner/result"):
            with self.subTest(name):
                os.rename(self.top / name, self.top / "away")
                self.assertIn(name, self.assert_agrees(lines))
                self.assertIn(name, self.assert_agrees(self.recorded("make")))
                os.rename(self.top / "away", self.top / name)

    def test_removed_header_with_a_rule_of_its_own(self) -> None:
        self.built()
        os.unlink(self.top / "a b.h")
        found = self.out_of_date(self.recorded("make")) - {"all", "sub"}
        # make has nothing to do for the header, but takes it as new
        self.assertEqual(found - {"a b.h"}, self.wanted())
        self.assertEqual(found, {"a b.h", "a b.o", "app"})

    def test_phony_targets_are_always_out_of_date(self) -> None:
        self.built()
        lines = self.recorded("make")
        self.assertLessEqual({"all", "sub"}, self.out_of_date(lines))
        self.assertIn("1 always all => ok", lines)

    def test_goals(self) -> None:
        self.run_tool("make", "aside", "util.o")
        lines = self.recorded("make", "aside", "util.o")
        targets = [line.split(" ")[2] for line in lines if " done " in line]
        self.assertEqual(sorted(targets), ["aside", "util.o"])

    def test_tree_that_was_never_built(self) -> None:
        lines = self.recorded("make")
        self.assertLessEqual(self.out_of_date(lines) - {"all", "sub"}, self.wanted())
        failed = {line.split(" ")[2] for line in lines if " failed " in line}
        self.assertLessEqual(
            {"app", "main.o", "util.o", "a%20b.o", "version.h", "inner/result"}, failed
        )

    def test_make_fails(self) -> None:
        os.unlink(self.top / "version.txt")
        status, out, errors = record("make", str(self.top))
        self.assertEqual((status, out, errors.count("\n")), (2, "", 1))
        self.assertRegex(errors, r"\Aredodb record: .*No rule to make target 'version.txt'")


VARIABLES = """\
define lines
one

aside: two
three: four
endef
.RECIPEPREFIX = >
all: a.x b.x c.x d.x e.x f.x g.x h.x i.x j.x k.x many.x n=o.x
a.x: FLAGS = -O2 -Wall
b.x: FLAGS := -O2 $$x
c.x: FLAGS += -g
d.x: FLAGS ?= some other
e.x: FLAGS != echo some other
f.x: override FLAGS = some
g.x: export FLAGS = some
h.x: private FLAGS = some
i.x: export override private FLAGS ::= some
j.x: FLAGS := $(lines)
k.x: FLAGS =
k.x: FLAGS += $(lines)
many.x: FIRST = some
many.x: SECOND := some
many.x: export THIRD := $(lines)
n=o.x: FLAGS = some
%.x: OF_PATTERN = some
%.x: private OF_PATTERN += other
all: OF_ALL = some
b.in: OF_A_SOURCE = some
%.x: %.in shared
> cp $< $@ # $@ is built
c.x: c.in shared | order
> cp $< $@ # $@ is built
order:
> touch order # $@ is built
"""
STEMS = ("a", "b", "c", "d", "e", "f", "g", "h", "i", "j", "k", "many", "n=o")


@unittest.skipUnless(has_tools("make"), "wants make and redodb-live")
class VariablesOfTargets(AgreeTest):
    """A variable of a target is printed like a rule, and is none."""

    files = {"Makefile": VARIABLES, "shared": "", **{f"{stem}.in": "" for stem in STEMS}}
    phony = {"all"}

    def wanted(self) -> set[str]:
        """Return what `make -n` would build."""
        return set(re.findall("# (.*) is built$", self.run_tool("make", "-n"), re.M))

    def test_names(self) -> None:
        """The names are those of the files, whether all are built or none."""
        names = {f"{stem}.{end}" for stem in STEMS for end in ("in", "x")} | {"all", "shared"}
        for built in (False, True):
            with self.subTest(built=built):
                found = {word for line in self.recorded("make") for word in line.split(" ")[2:]}
                self.assertLessEqual(names, found)
                of_variables = "FLAGS|some|OF_|lines|aside|[+:!?]=|-O2|-g|RECIPE|FIRST|three"
                self.assertEqual({word for word in found if re.search(of_variables, word)}, set())
            self.run_tool("make")

    def test_each_edited_source(self) -> None:
        self.run_tool("make")
        self.assertEqual(self.assert_agrees(self.recorded("make")), set())
        targets = {f"{stem}.in": {f"{stem}.x"} for stem in STEMS}
        targets["shared"] = {f"{stem}.x" for stem in STEMS}
        for name, wanted in targets.items():
            with self.subTest(name):
                lines = self.recorded("make")
                self.write(name, "edited\n")
                self.assertEqual(self.assert_agrees(lines), wanted)
                self.assertEqual(self.assert_agrees(self.recorded("make")), wanted)
                self.run_tool("make")


if __name__ == "__main__":
    unittest.main()
