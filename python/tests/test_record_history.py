"""The history and the log that `redodb record` writes, and what goes on from them."""

import os
import unittest

import beside  # noqa: F401
from redodb.conversation import Conversation
from redodb.record.events import MOST_BYTES, MOST_NAMES, in_lines, inputs_first
from redodb.record.graph import Target
from trees import TOP, TreeTest, is_proved, program_answers, record


@unittest.skipUnless(program_answers(), "wants redodb-live")
class RecordHistory(TreeTest):
    def setUp(self) -> None:
        super().setUp()
        for name in ("one.c", "two.c", "a.h", "one.o", "two.o"):
            self.write(name, "\n")
        self.write("all.d", "one.o: one.c a.h\ntwo.o: two.c a.h\n")
        for name in ("one.c", "two.c", "a.h"):
            self.age(name, 10)

    @unittest.skipUnless(is_proved("redodb_cli"), "wants the proved redodb")
    def test_replays_as_the_same(self) -> None:
        self.age("two.c", -100)
        lines = self.recorded("depfiles")
        history = self.write(
            "history", "".join(f"{line}\n" for line in [f"history {len(lines)}", *lines])
        )
        replayed = self.run_tool(str(TOP / "redodb"), "replay", str(history))
        self.assertEqual(replayed, f"same {len(lines)}\n")

    def test_log_is_gone_on_from(self) -> None:
        log = self.top / ".redo/log"
        log.parent.mkdir()
        self.assertEqual(record("depfiles", str(self.top), "--log", str(log)), (0, "", ""))
        self.assertEqual(log.read_text().splitlines(), ["redodb-log 1", *self.recorded("depfiles")])
        with Conversation([b"--log", os.fsencode(log)]) as database:
            self.assertEqual(database.ask(b"2 ood"), b"2 ood => ood")
            database.ask(b"2 file a.h 1")
            self.assertEqual(database.ask(b"2 ood"), b"2 ood => ood one.o two.o")

    def test_log_that_is_there_is_left_alone(self) -> None:
        log = self.write("log", "mine\n")
        status, out, errors = record("depfiles", str(self.top), "--log", str(log))
        self.assertEqual((status, out, errors), (2, "", f"redodb record: {log}: File exists\n"))
        self.assertEqual(log.read_text(), "mine\n")

    def test_what_an_old_target_read_was_another_file(self) -> None:
        self.age("a.h", 5)
        self.age("one.o", 20)
        lines = self.recorded("depfiles")
        told = [line for line in lines if line.startswith(("1 file a.h", "1 done"))]
        self.assertEqual(
            [line.split(" ")[1:3] for line in told],
            [["file", "a.h"], ["done", "one.o"], ["file", "a.h"], ["done", "two.o"]],
        )
        self.assertEqual(told[0], "1 file a.h before => ok")
        self.assertEqual(self.out_of_date(lines), {"one.o"})

    def test_words_that_ask_for_nothing(self) -> None:
        for words in (
            (),
            ("ninja",),
            ("scons", "."),
            ("ninja", ".", "all"),
            ("depfiles", ".", "--log"),
            ("make", "-n"),
        ):
            with self.subTest(words):
                status, out, errors = record(*words)
                self.assertEqual((status, out), (2, ""))
                self.assertTrue(errors.startswith("usage: redodb record"))

    def test_no_folder(self) -> None:
        for kind in ("ninja", "make", "depfiles"):
            self.assertEqual(
                record(kind, str(self.top / "none"))[::2],
                (2, f"redodb record: {self.top / 'none'}: no folder\n"),
            )

    def test_help(self) -> None:
        status, out, errors = record("--help")
        self.assertEqual((status, errors), (0, ""))
        self.assertTrue(out.startswith("usage: redodb record"))


class Parts(unittest.TestCase):
    def test_lines_are_within_the_limits(self) -> None:
        for size, count in ((1, 64), (1, 65), (255, 31), (255, 200), (120, 129)):
            names = [b"%d" % at + b"n" * (size - len(str(at))) for at in range(count)]
            with self.subTest(size=size, count=count):
                lines = in_lines(b"ifchange " + b"t" * 255, names)
                self.assertEqual([name for line in lines for name in line.split(b" ")[2:]], names)
                self.assertTrue(all(len(line) <= MOST_BYTES for line in lines))
                self.assertTrue(all(len(line.split(b" ")) - 2 <= MOST_NAMES for line in lines))
                longer = [line + b" " + names[0] for line in lines[:-1]]
                self.assertTrue(
                    all(
                        len(line) > MOST_BYTES or line.count(b" ") > MOST_NAMES + 1
                        for line in longer
                    )
                )
        self.assertEqual(in_lines(b"ifchange t", []), [])

    def test_inputs_come_first(self) -> None:
        graph = {
            b"app": Target([b"b.o", b"a.o", b"c"]),
            b"a.o": Target([b"b.o"]),
            b"b.o": Target([b"c"]),
        }
        self.assertEqual(inputs_first(graph), [b"b.o", b"a.o", b"app"])

    def test_ring_is_cut(self) -> None:
        graph = {b"a": Target([b"b"]), b"b": Target([b"c"]), b"c": Target([b"a"])}
        self.assertEqual(inputs_first(graph), [b"c", b"b", b"a"])

    def test_long_chain(self) -> None:
        graph = {b"%d" % at: Target([b"%d" % (at + 1)]) for at in range(50_000)}
        self.assertEqual(inputs_first(graph), [b"%d" % at for at in reversed(range(50_000))])


if __name__ == "__main__":
    unittest.main()
