"""Answers, as docs/RULES.md gives them, and what is read from them."""
import unittest

import beside  # noqa: F401
from redodb import replies
from redodb.errors import FaultError, ProtocolError, RefusedError
from redodb.replies import (
    Busy,
    Deps,
    FaultWord,
    Forgotten,
    Granted,
    Known,
    Names,
    NameState,
    Reason,
    Refusal,
    Ring,
    State,
    Users,
    Why,
)


class Replies(unittest.TestCase):
    def test_locks(self) -> None:
        self.assertEqual(replies.read_lock(b"granted 1", b"lock a"), Granted(1))
        self.assertEqual(replies.read_lock(b"busy 4294967295", b"lock a"), Busy(4294967295))
        self.assertEqual(replies.read_wait(b"granted 7", b"wait a -"), Granted(7))
        self.assertEqual(replies.read_wait(b"ring a b a", b"wait a b"), Ring((b"a", b"b", b"a")))
        self.assertEqual(replies.read_wait(b"forgotten", b"wait a b"), Forgotten())

    def test_lists(self) -> None:
        self.assertEqual(list(replies.read_names(b"ood", b"ood")), [])
        names = replies.read_names(b"targets a b", b"targets")
        self.assertEqual(
            (list(names), len(names), b"b" in names, b"c" in names), ([b"a", b"b"], 2, True, False)
        )
        self.assertEqual(replies.read_stale(b"ok", b"ifchange t a"), Names(()))
        self.assertEqual(replies.read_stale(b"stale a b", b"ifchange t a b"), Names((b"a", b"b")))

    def test_why(self) -> None:
        self.assertIsNone(replies.read_why(b"clean", b"why app"))
        self.assertEqual(
            replies.read_why(b"changed util.h app util.o", b"why app"),
            Why(Reason.CHANGED, b"util.h", (b"app", b"util.o")),
        )
        for reason in Reason:
            answer = f"{reason.value} app app".encode()
            self.assertEqual(replies.read_why(answer, b"why app"), Why(reason, b"app", (b"app",)))

    def test_deps(self) -> None:
        self.assertEqual(
            replies.read_deps(b"change 1 util.h created 0 always 0", b"deps util.o"),
            Deps((b"util.h",), (), False),
        )
        self.assertEqual(
            replies.read_deps(b"change 2 created always created 3 0 1 always always 1", b"deps x"),
            Deps((b"created", b"always"), (b"0", b"1", b"always"), True),
        )

    def test_users(self) -> None:
        self.assertEqual(
            replies.read_users(b"change 2 app lib created 0", b"users util.o"),
            Users((b"app", b"lib"), ()),
        )
        self.assertEqual(
            replies.read_users(b"change 1 created created 2 0 created", b"users x"),
            Users((b"created",), (b"0", b"created")),
        )

    def test_names(self) -> None:
        self.assertEqual(replies.read_known(b"0", b"names"), ())
        digest = "86f7e437faa5a7fce15d1ddcb9eaeaea377667b8"
        self.assertEqual(
            replies.read_known(f"2 a.c 7 idle 0 - - a.o - failed 3 5 {digest}".encode(), b"names"),
            (
                Known(b"a.c", State.IDLE, "7", 0, None, None),
                Known(b"a.o", State.FAILED, None, 3, "5", digest),
            ),
        )

    def test_state(self) -> None:
        self.assertEqual(
            replies.read_state(b"built lock 1 file 3", b"state app"),
            NameState(State.BUILT, None, 1, "3"),
        )
        self.assertEqual(
            replies.read_state(b"building 64 lock 64 file -", b"state app"),
            NameState(State.BUILDING, 64, 64, None),
        )
        self.assertEqual(
            replies.read_state(b"idle lock - file -", b"state app"),
            NameState(State.IDLE, None, None, None),
        )

    def test_refusals_are_errors(self) -> None:
        for refusal in Refusal:
            name = b"a" if refusal is Refusal.EXISTS else None
            answer = f"refused {refusal.value}".encode() + (b" a" if name else b"")
            with self.assertRaises(RefusedError) as caught:
                replies.read_ok(answer, b"ifcreate t a")
            self.assertEqual((caught.exception.refusal, caught.exception.name), (refusal, name))

    def test_faults_are_errors(self) -> None:
        for word in FaultWord:
            for read in (
                replies.read_lock,
                replies.read_why,
                replies.read_deps,
                replies.read_users,
                replies.read_state,
                replies.read_known,
                replies.read_ok,
            ):
                with self.assertRaises(FaultError) as caught:
                    read(f"fault {word.value}".encode(), b"lock a")
                self.assertIs(caught.exception.word, word)

    def test_what_is_no_answer_is_an_error(self) -> None:
        for answer in (
            b"",
            b"okay",
            b"granted",
            b"granted x",
            b"fault never",
            b"refused",
            b"change 9 a created 0 always 0",
            b"idle lock - stamp -",
            b"asleep lock - file -",
            b"changed",
            b"never a a",
            b"1 a - idle 0 -",
            b"1 a - asleep 0 - -",
            b"1 a - idle x - -",
        ):
            for read in (
                replies.read_lock,
                replies.read_wait,
                replies.read_why,
                replies.read_deps,
                replies.read_users,
                replies.read_state,
                replies.read_known,
                replies.read_ok,
                replies.read_count,
            ):
                with self.subTest(answer=answer, read=read.__name__), self.assertRaises(
                    ProtocolError
                ):
                    read(answer, b"lock a")
