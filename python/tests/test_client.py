"""The plain client, and the server that it starts."""
import doctest
import io
import os
import tempfile
import threading
import time
import unittest
import unittest.mock
from collections.abc import Callable
from pathlib import Path

import beside  # noqa: F401
from redodb import Client, client, commands
from redodb.errors import BadName, FaultError, RefusedError, ServerError
from redodb.places import Places
from redodb.replies import (
    Busy,
    Deps,
    FaultWord,
    Forgotten,
    Granted,
    Names,
    NameState,
    Reason,
    Refusal,
    Ring,
    State,
    Users,
    Why,
)
from served import PATIENCE, ServedTree, eventually, is_free, program_or_skip


class Examples(unittest.TestCase):
    """Each docstring's example, in a tree of its own."""

    def test_are_true(self) -> None:
        program_or_skip()
        first, second = run_examples(client), run_examples(commands)
        self.assertEqual((first[0] + second[0], first[1] + second[1]), (len(COMMANDS) + 4, 0))


COMMANDS = (
    "file",
    "gone",
    "lock",
    "unlock",
    "start",
    "ifchange",
    "ifcreate",
    "always",
    "stamp",
    "done",
    "failed",
    "ood",
    "targets",
    "sources",
    "why",
    "deps",
    "users",
    "state",
    "names",
    "wait",
    "forget",
    "look",
    "group",
    "ungroup",
    "end",
)


def run_examples(module: object) -> tuple[int, int]:
    """Return how many docstrings of a module have examples, and how many of these examples fail."""
    count = failed = 0
    for test in doctest.DocTestFinder(exclude_empty=True).find(module):
        if not test.examples:
            continue
        with tempfile.TemporaryDirectory(ignore_cleanup_errors=True) as top:
            with Client(top, idle=0.05, timeout=PATIENCE) as one:
                test.globs.update(top=top, client=one)
                said = io.StringIO()
                failed += (
                    doctest.DocTestRunner(optionflags=doctest.IGNORE_EXCEPTION_DETAIL)
                    .run(test, out=said.write)
                    .failed
                )
                print(said.getvalue(), end="")
            with open(Places(os.fsencode(os.path.realpath(top))).lock, "rb") as lock:
                assert eventually(lambda: is_free(lock.fileno()))
        count += 1
    return count, failed


class Commands(ServedTree):
    def setUp(self) -> None:
        super().setUp()
        self.client_ = Client(self.top, idle=0.05, timeout=PATIENCE)
        self.addCleanup(self.client_.close)

    def other(self) -> Client:
        other = Client(self.top, timeout=PATIENCE)
        self.addCleanup(other.close)
        return other

    def test_of_a_small_project(self) -> None:
        """The build and questions of "Why a target is out of date" in docs/EXAMPLES.md."""
        one, two = self.client_, self.other()
        one.file("util.h", "1")
        self.assertEqual(one.lock("util.o"), Granted(1))
        one.start("util.o")
        self.assertEqual(one.ifchange("util.o", ["util.h"]), Names(()))
        one.done("util.o", "2")
        self.assertEqual(one.lock(b"app"), Granted(1))
        one.start(b"app")
        self.assertEqual(one.ifchange(b"app", [b"util.o"]), Names(()))
        one.done(b"app", "3")
        one.file("util.h", "4")
        self.assertEqual(two.why("app"), Why(Reason.CHANGED, b"util.h", (b"app", b"util.o")))
        self.assertIsNone(two.why("util.h"))
        self.assertEqual(two.deps("util.o"), Deps((b"util.h",), (), False))
        self.assertEqual(two.users("util.o"), Users((b"app",), ()))
        self.assertEqual(two.state("app"), NameState(State.BUILT, None, one.session, "3"))
        self.assertEqual(list(two.ood()), [b"app", b"util.o"])
        self.assertEqual(list(two.targets()), [b"app", b"util.o"])
        self.assertEqual(list(two.sources()), [b"util.h"])
        self.assertEqual(two.lock("app"), Busy(1))
        one.end()
        self.assertEqual(two.lock("app"), Granted(2))

    def test_that_are_refused_raise(self) -> None:
        one = self.client_
        one.file("a", "1")
        one.lock("t")
        refused: list[tuple[Callable[[], object], Refusal]] = [
            (lambda: one.unlock("x"), Refusal.NOT_LOCKED),
            (lambda: one.start("x"), Refusal.NOT_LOCKED),
            (lambda: one.done("t", "1"), Refusal.NOT_BUILDING),
            (lambda: one.ifchange("t", ["a"]), Refusal.NOT_BUILDING),
        ]
        for call, refusal in refused:
            with self.assertRaises(RefusedError) as caught:
                call()
            self.assertIs(caught.exception.refusal, refusal)
        one.start("t")
        with self.assertRaises(RefusedError) as caught:
            one.ifcreate("t", ["b", "a"])
        self.assertEqual((caught.exception.refusal, caught.exception.name), (Refusal.EXISTS, b"a"))
        with self.assertRaises(RefusedError) as caught:
            one.ifchange("t", ["t"])
        self.assertIs(caught.exception.refusal, Refusal.SELF)

    def test_take_no_name_that_is_none(self) -> None:
        names: list[str | bytes] = [
            "",
            "a b",
            "a\nb",
            "#a",
            "-",
            "=>",
            "a" * 256,
            "\u00e9",
            b"\xff",
        ]
        for name in names:
            calls: list[Callable[[str | bytes], object]] = [
                self.client_.lock,
                self.client_.why,
                self.client_.gone,
                self.client_.wait,
            ]
            for call in calls:
                with self.assertRaises(BadName):
                    call(name)
        for stamp in ("", "a b", "a\nb", "x" * 65, "\u00e9"):
            with self.assertRaises(ValueError):
                self.client_.file("a", stamp)
        with self.assertRaises(FaultError) as caught:
            self.client_.file("a", "-")
        self.assertIs(caught.exception.word, FaultWord.BAD_STAMP)

    def test_take_any_number_of_names(self) -> None:
        one = self.client_
        names = [f"dep{number:04}{'x' * (number % 200)}" for number in range(500)]
        one.ask_all([f"file {name} 1".encode() for name in names[1::2]])
        one.lock("t")
        one.start("t")
        self.assertEqual(list(one.ifchange("t", names)), [name.encode() for name in names[::2]])
        one.ifcreate("t", [f"none{number}" for number in range(200)])
        deps = one.deps("t")
        self.assertEqual(deps.changed, tuple(sorted(name.encode() for name in names)))
        self.assertEqual(len(deps.created), 200)
        self.assertEqual(one.ifchange("t", []), Names(()))
        self.assertEqual(one.look(names), 250)
        self.assertEqual(one.look([]), 0)

    def test_wait_until_the_holder_lets_go(self) -> None:
        one, two = self.client_, self.other()
        one.lock("a")
        timer = threading.Timer(0.2, one.unlock, ["a"])
        timer.start()
        before = time.monotonic()
        self.assertEqual(two.wait("a"), Granted(2))
        self.assertGreater(time.monotonic() - before, 0.1)
        timer.join()

    def test_wait_no_longer_than_they_may(self) -> None:
        one, two = self.client_, self.other()
        one.lock("a")
        with self.assertRaises(TimeoutError):
            two.wait("a", timeout=0.1)
        one.unlock("a")
        self.assertEqual(two.state("a"), NameState(State.IDLE, None, None, None))
        self.assertEqual(two.wait("a", timeout=0.1), Granted(2))

    def test_tell_a_ring(self) -> None:
        self.assertEqual(self.client_.wait("a"), Granted(1))
        self.assertEqual(self.client_.wait("b", "a"), Granted(1))
        self.assertEqual(self.client_.wait("a", "b"), Ring((b"a", b"b", b"a")))

    def test_forget(self) -> None:
        one = self.client_
        one.lock("a")
        self.assertEqual(one.ask_all([b"wait a p", b"forget a p"]), [b"forgotten", b"ok"])
        self.assertFalse(one.forget("a", "p"))
        self.assertEqual(Forgotten(), Forgotten())

    def test_go_on_after_a_timeout(self) -> None:
        server = server_of(self.top)
        children = Path(f"/proc/{server}/task/{server}/children").read_text()
        os.kill(int(children), 19)
        self.client_.timeout = 0.1
        with self.assertRaises(TimeoutError):
            self.client_.lock("a")
        os.kill(int(children), 18)
        self.client_.timeout = PATIENCE
        self.assertEqual(self.client_.lock("a"), Busy(1))
        self.assertEqual(self.client_.lock("b"), Granted(1))

    def test_fail_where_the_server_was_killed(self) -> None:
        os.kill(server_of(self.top), 9)
        with self.assertRaises(ServerError):
            self.client_.lock("a")
        with self.other() as again:
            self.assertEqual(again.lock("a"), Granted(1))


def server_of(top: str) -> int:
    """Return the process that is the server."""
    return int(Path(os.fsdecode(Places(os.fsencode(top)).lock)).read_text())
