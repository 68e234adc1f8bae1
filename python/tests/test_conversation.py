"""Talking to one redodb-live: many lines ahead, and programs that aren't there or fail."""

import os
import unittest
from unittest import mock

import beside  # noqa: F401
from redodb.conversation import MOST_AHEAD, NOT_FOUND, Conversation
from redodb.errors import ServerError
from trees import TreeTest, program_answers


@unittest.skipUnless(program_answers(), "wants redodb-live")
class Talk(unittest.TestCase):
    def test_one_by_one(self) -> None:
        with Conversation() as database:
            self.assertEqual(database.ask(b"1 file a 1"), b"1 file a 1 => ok")
            self.assertEqual(database.ask(b"2 lock a"), b"2 lock a => granted 1")
            self.assertEqual(database.ask(b"3 lock a"), b"3 lock a => busy 1")
            self.assertEqual(database.ask(b"3 lick a"), b"3 fault unknown-command")

    def test_many_lines_with_long_answers(self) -> None:
        names = [b"n%d" % at for at in range(3000)]
        lines = []
        for name in names:
            lines += [b"1 lock %b" % name, b"1 start %b" % name, b"1 done %b 1" % name]
        lines += [b"1 targets"] * 40
        with Conversation() as database:
            answers = list(database.ask_all(lines))
        self.assertEqual([answer.partition(b" => ")[0] for answer in answers], lines)
        self.assertEqual(answers[-1].split(b" ")[4:], sorted(names))
        self.assertGreater(len(answers[-1]), 65_536 // 4)

    def test_lines_that_fill_what_is_sent_ahead(self) -> None:
        for size in (MOST_AHEAD - 1, MOST_AHEAD, MOST_AHEAD + 1, 3 * MOST_AHEAD):
            with self.subTest(size), Conversation() as database:
                line = b"1 " + b"x" * (size - 3)
                self.assertEqual(list(database.ask_all([line] * 3)), [b"1 fault line-too-long"] * 3)

    def test_no_lines(self) -> None:
        with Conversation() as database:
            self.assertEqual(list(database.ask_all([])), [])


class Failing(TreeTest):
    def test_none_is_found(self) -> None:
        with mock.patch("redodb.conversation.find_program", lambda: None):
            with self.assertRaisesRegex(ServerError, NOT_FOUND.replace("$", r"\$")):
                Conversation()

    def failing(self, script: str) -> None:
        """Talk to a program that is this script."""
        program = self.write("program", f"#!/bin/sh\n{script}\n")
        program.chmod(0o755)
        with mock.patch.dict(os.environ, {"REDODB_LIVE": str(program)}), Conversation() as database:
            database.ask(b"1 ood")

    def test_it_says_what_the_program_says(self) -> None:
        with self.assertRaisesRegex(ServerError, "^redodb-live: usage$"):
            self.failing("echo redodb-live: usage >&2; exit 2")
        with self.assertRaisesRegex(ServerError, "^redodb-live: memory$"):
            self.failing(
                "echo redodb-live 0 restored 0; read line; echo redodb-live: memory >&2; exit 2"
            )

    def test_it_ends_without_a_word(self) -> None:
        for script in ("exit 0", "exit 3", "echo redodb-live 0 restored 0", "printf cut; exit 1"):
            with self.subTest(script), self.assertRaisesRegex(ServerError, "^redodb-live ended$"):
                self.failing(script)

    def test_it_cannot_be_started(self) -> None:
        with mock.patch.dict(os.environ, {"REDODB_LIVE": str(self.top)}):
            with self.assertRaisesRegex(ServerError, "Permission denied"):
                Conversation()


if __name__ == "__main__":
    unittest.main()
