"""What `redodb record --rules` refuses, and which files it leaves as they are."""

import os
import unittest

import beside  # noqa: F401
from ruled_trees import SMALL, RulesTest

REFUSED = {
    "build ../x: copy in.txt\n": "../x: it is outside of the tree",
    "build .redo/x: copy in.txt\n": ".redo/x: .redo is redo's own",
    "build y.do: copy in.txt\n": "y.do: a .do file that is a target can't be taken over",
    f"build {'y' * 254}: copy in.txt\n": "y" * 9,
    "build x.txt: copy in.txt\n": "x.txt: two edges build it",
    "rule d\n  command = x\n  dyndep = d\nbuild y: d in.txt\n": "y: dyndep isn't taken over",
    "rule d\n  command = x\n  deps = msvc\nbuild y: d in.txt\n": "y: only deps = gcc",
    "rule d\nbuild y: d in.txt\n": "y: its rule has no command",
    "rule d\n  command = $a\n  a = $command\nbuild y: d in.txt\n": "d: its command is made of",
    "build out/x: copy in.txt\n": "x: it is outside of the tree",
    "build taken: copy in.txt\n": "taken.do is there, and redodb record didn't write it",
    "build folder: copy in.txt\n": "folder.do is there, and can't be read: Is a",
    "build link: copy in.txt\n": "link.do is there, and can't be read",
    "build fifo: copy in.txt\n": "fifo.do is there, and no regular file",
    "build ../\x1b[31m: copy in.txt\n": r"../\x1b[31m: it is outside of the tree",
    "build y: copy in.txt || x.txt\nbuild x.txt.there: copy in.txt\n": "x.txt.there",
}


class RefusedRules(RulesTest):
    def test_refusals_write_nothing(self) -> None:
        self.write("in.txt", "one\n")
        self.write("taken.do", "echo mine\n")
        self.write("mine.txt", "mine\n")
        (self.top / "folder.do").mkdir()
        (self.top / "link.do").symlink_to("mine.txt")
        (self.top / "out").symlink_to("..")
        os.mkfifo(self.top / "fifo.do")
        before = sorted(self.top.rglob("*"))
        for text, wanted in REFUSED.items():
            with self.subTest(wanted):
                manifest = self.write("build.ninja", SMALL + text)
                errors = self.record("ninja", ".", "--rules", status=2)
                self.assertTrue(errors.startswith("redodb record: "), errors)
                self.assertIn(wanted, errors)
                self.assertEqual(errors.count("\n"), 1, errors)
                manifest.unlink()
                self.assertEqual(sorted(self.top.rglob("*")), before)
        self.assertEqual(self.read("taken.do"), b"echo mine\n")

    def test_what_was_written_is_written_again_unless_it_was_edited(self) -> None:
        self.write("in.txt", "one\n")
        self.write("build.ninja", SMALL)
        self.record("ninja", ".", "--rules")
        first = (self.top / "x.txt.do").stat()
        self.record("ninja", ".", "--rules")
        self.assertEqual((self.top / "x.txt.do").stat().st_ino, first.st_ino)
        self.write("build.ninja", SMALL.replace("cp $in", "cp -p $in"))
        self.record("ninja", ".", "--rules")
        text = self.read("x.txt.do").decode()
        self.assertIn("cp -p in.txt x.txt", text)
        self.write("x.txt.do", text + "# mine\n")
        errors = self.record("ninja", ".", "--rules", status=2)
        self.assertIn("x.txt.do is there, and redodb record didn't write it, or it was", errors)
        self.assertEqual(self.read("x.txt.do").decode(), text + "# mine\n")
        self.assertEqual([path for path in self.top.iterdir() if path.name[0] == "."], [])

    def test_own_all_stays(self) -> None:
        self.write("in.txt", "one\n")
        self.write("build.ninja", SMALL)
        self.write("all.do", "redo-ifchange x.txt\n")
        self.record("ninja", ".", "--rules")
        self.assertEqual(self.read("all.do"), b"redo-ifchange x.txt\n")

    def test_built_tree_without_a_log_is_warned_of(self) -> None:
        self.write("in.txt", "one\n")
        self.write("x.txt", "one\n")
        self.write("build.ninja", SMALL)
        self.assertIn("x.txt is there, which redo takes", self.record("ninja", ".", "--rules"))

    def test_words(self) -> None:
        for words in (["make", ".", "--log"], ["depfiles", ".", "--rules"], ["compdb", "."]):
            self.assertIn("usage: ", self.record(*words, status=2), words)


if __name__ == "__main__":
    unittest.main()
