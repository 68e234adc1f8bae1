"""redo goes on from the log that `redodb record --log` writes of a tree that ninja built."""

import os
import subprocess
import unittest

import beside  # noqa: F401
from trees import TOP, TreeTest, has_tools, record

MANIFEST = """\
rule cc
  command = gcc -MD -MF $out.d -c $in -o $out
  description = $out
  depfile = $out.d
  deps = gcc
rule link
  command = gcc $in -o $out
  description = $out
build one.o: cc one.c
build sub/two$ words.o: cc sub/two$ words.c
build app: link one.o sub/two$ words.o
"""
FILES = {
    "build.ninja": MANIFEST,
    "one.c": '#include "one.h"\nint main(void) { return two(); }\n',
    "one.h": "int two(void);\n",
    "sub/two words.c": '#include "../one.h"\nint two(void) { return 0; }\n',
    "app.do": 'redo-ifchange one.o "sub/two words.o"\ngcc one.o "sub/two words.o" -o "$3"\n',
    "default.o.do": 'redo-ifchange "$2.c" one.h\ngcc -c "$2.c" -o "$3"\n',
}


@unittest.skipUnless(
    (TOP / "redo/target/release/redo").exists() and has_tools("ninja", "gcc"),
    "wants redo, ninja, gcc and redodb-live",
)
class RecordForRedo(TreeTest):
    def setUp(self) -> None:
        super().setUp()
        for name, text in FILES.items():
            self.write(name, text)
            self.age(name, 100)
        self.run_tool("ninja")
        (self.top / ".redo").mkdir()
        log = str(self.top / ".redo/log")
        self.assertEqual(record("ninja", str(self.top), "--log", log), (0, "", ""))

    def redo(self, *words: str) -> tuple[list[str], list[str]]:
        """Return the lines of standard output of a redo program, and the targets that it built."""
        path = f"{TOP / 'bin'}:{os.environ.get('PATH', os.defpath)}"
        environment = {name: value for name, value in os.environ.items() if name[:4] != "REDO"}
        if "REDODB_LIVE" in os.environ:
            environment["REDODB_LIVE"] = os.environ["REDODB_LIVE"]
        run = subprocess.run(
            words,
            cwd=self.top,
            env={**environment, "PATH": path},
            capture_output=True,
            text=True,
            check=False,
        )
        self.assertEqual(run.returncode, 0, run.stderr)
        begin = "redo  "
        built = [line[6:].strip() for line in run.stderr.splitlines() if line.startswith(begin)]
        return run.stdout.splitlines(), built

    def test_nothing_is_to_do(self) -> None:
        self.assertEqual(self.redo("redo-ood"), ([], []))
        self.assertEqual(self.redo("redo-ifchange", "app"), ([], []))
        self.assertEqual(self.redo("redo-targets")[0], ["app", "one.o", "sub/two words.o"])

    def test_what_is_touched_has_not_changed(self) -> None:
        for name in FILES:
            os.utime(self.top / name)
        self.assertEqual(self.redo("redo-ood"), ([], []))
        self.assertEqual(self.redo("redo-ifchange", "app"), ([], []))

    def test_what_changes_is_built(self) -> None:
        self.write("sub/two words.c", FILES["sub/two words.c"] + "\n")
        self.assertEqual(self.redo("redo-ood")[0], ["app", "sub/two words.o"])
        self.assertEqual(sorted(self.redo("redo-ifchange", "app")[1]), ["app", "sub/two words.o"])
        self.assertEqual(self.redo("redo-ood"), ([], []))

    def test_what_was_edited_since_stays_as_it_is(self) -> None:
        self.write("one.o", "by hand\n")
        self.write("sub/two words.c", FILES["sub/two words.c"] + "\n")
        self.assertEqual(self.redo("redo-targets", "--edited")[0], ["one.o"])
        self.assertEqual(self.redo("redo-ifchange", "one.o"), ([], []))
        self.assertEqual((self.top / "one.o").read_text(), "by hand\n")

    def test_header_that_ninja_noted(self) -> None:
        self.write("one.h", FILES["one.h"] + "\n")
        self.assertEqual(self.redo("redo-ood")[0], ["app", "one.o", "sub/two words.o"])
        self.assertEqual(
            sorted(self.redo("redo-ifchange", "app")[1]), ["app", "one.o", "sub/two words.o"]
        )


if __name__ == "__main__":
    unittest.main()
