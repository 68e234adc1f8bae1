"""The database of this process. Skipped if library/make hasn't made the library."""
import doctest
import unittest

import beside  # noqa: F401
from redodb import Database, _native
from redodb.errors import BadName, FaultError, LibraryError, RefusedError
from redodb.places import find_library
from redodb.replies import Busy, FaultWord, Granted, Names, Reason, Refusal, State

HEADER = b"redodb-log 1\n"


class NativeTest(unittest.TestCase):
    def setUp(self) -> None:
        if find_library() is None:
            self.skipTest("libredodb is not made")
        self.database = Database()
        self.addCleanup(self.database.close)


class Examples(NativeTest):
    def test_are_true(self) -> None:
        examples = doctest.DocTestFinder(recurse=True).find(
            _native, globs={"Database": Database, "Reason": Reason}
        )
        runner = doctest.DocTestRunner(verbose=False)
        for example in examples:
            runner.run(example)
        self.assertEqual((runner.failures, runner.tries > 0), (0, True))


class Calls(NativeTest):
    def build(self) -> None:
        database = self.database
        database.file("a.c", "10")
        database.lock("a.o")
        database.start("a.o")
        database.ifchange("a.o", ["a.c"])
        database.done("a.o", "20")
        database.unlock("a.o")

    def test_a_target_is_out_of_date(self) -> None:
        self.build()
        self.assertIsNone(self.database.why("a.o"))
        self.database.file("a.c", "11")
        why = self.database.why("a.o")
        assert why is not None
        self.assertEqual((why.reason, why.name, why.chain), (Reason.CHANGED, b"a.c", (b"a.o",)))
        self.assertEqual(self.database.ood(), Names((b"a.o",)))
        self.assertEqual(self.database.state("a.o").state, State.BUILT)

    def test_errors(self) -> None:
        with self.assertRaises(RefusedError) as refused:
            self.database.start("a.o")
        self.assertEqual(refused.exception.refusal, Refusal.NOT_LOCKED)
        with self.assertRaises(BadName):
            self.database.lock("a b")
        self.database.session = 65_535
        self.assertEqual(self.database.lock("a.o"), Granted(1))
        with self.assertRaises(FaultError) as fault:
            self.database.session = 65_536
            self.database.lock("a.o")
        self.assertEqual(fault.exception.word, FaultWord.BAD_SESSION)

    def test_log(self) -> None:
        self.build()
        self.database.lock("b")
        self.database.ood()
        logged = self.database.take_logged()
        self.assertEqual((logged.count(b"\n"), b"ood" in logged), (7, False))
        self.assertEqual(self.database.take_logged(), b"")
        with Database(HEADER + logged + b"1 unl", session=2) as again:
            self.assertEqual(again.lock("b"), Busy(1))
            self.assertEqual(again.targets(), Names((b"a.o",)))
            again.session = 1
            again.end()
            self.assertEqual(again.take_logged(), b"1 unlock b => ok\n")
            again.session = 2
            self.assertEqual(again.lock("b"), Granted(2))

    def test_long_answers(self) -> None:
        names = [f"{number:04}{'x' * 200}" for number in range(100)]
        self.database.ask_all(f"lock {name}".encode() for name in names)
        said = self.database.answer(b"1 end")
        self.assertEqual(said.count(b"\n"), len(names) + 1)
        self.assertGreater(len(said), _native.FIRST_ROOM)

    def test_requests_as_they_are(self) -> None:
        asked = [b"file a 1", b"state a", b"stamp a FF", b"file => 1", b"now", b"end"]
        told = [
            b"ok",
            b"idle lock - file 1",
            b"refused not-building",
            b"fault bad-name",
            b"fault unknown-command",
            b"ok",
        ]
        self.assertEqual(self.database.ask_all(asked), told)

    def test_bad_logs_and_ends(self) -> None:
        for log in (b"history 1\n", HEADER + b"1 lock a => granted 2\n"):
            with self.assertRaises(LibraryError):
                Database(log)
        self.database.close()
        self.database.close()
        with self.assertRaises(LibraryError):
            self.database.ood()

    def test_no_library(self) -> None:
        with self.assertRaises(LibraryError):
            _native.Library(b"/nowhere/libredodb.so")


if __name__ == "__main__":
    unittest.main()
