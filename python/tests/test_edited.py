"""The requests `edited` and `late`, and the names of what is in edited targets."""
import os
import unittest

import beside  # noqa: F401
from digests import plain
from redodb import requests
from redodb.errors import BadName, FaultError
from served import ServedTree

FAR = 1 << 62


class Edited(ServedTree):
    """A target x that was built with a file, and one that was built without."""

    def setUp(self) -> None:
        super().setUp()
        self.write("x", "1")
        self.serve(idle=60)
        self.one = self.client()
        self.ask("lock x", "start x", f"done x {plain(b'1')}", "lock none", "start none")
        self.ask("done none -")

    def ask(self, *lines: str) -> list[str]:
        """Return the answers to lines, without their numbers."""
        answers = self.one.talk(*(f"1 {line}" for line in lines))
        return [answer.removeprefix("1 ") for answer in answers]

    def test_are_none_after_a_build(self) -> None:
        self.assertEqual(self.ask("look", "edited", "edited x none"), ["ok 0", "edited", "edited"])

    def test_are_those_whose_file_no_build_left(self) -> None:
        self.write("x", "by hand")
        self.write("none", "by hand")
        self.assertEqual(self.ask("edited", "look", "edited"), ["edited", "ok 2", "edited none x"])
        self.assertEqual(self.ask("edited x y", "edited y none"), ["edited x", "edited none"])
        self.assertEqual(self.ask("edited y"), ["edited"])
        self.write("x", "1")
        os.unlink(os.path.join(self.top, "none"))
        self.assertEqual(self.ask("look", "edited"), ["ok 2", "edited"])

    def test_are_no_sources_folders_and_what_is_building(self) -> None:
        os.unlink(os.path.join(self.top, "x"))
        os.mkdir(os.path.join(self.top, "x"))
        self.write("source", "1")
        self.write("none", "by hand")
        self.ask("look", "look source", "start none")
        self.assertEqual(self.ask("edited"), ["edited"])
        self.ask("failed none")
        self.assertEqual(self.ask("look", "edited"), ["ok 0", "edited"])

    def test_are_those_that_a_failed_build_did_not_leave(self) -> None:
        left = f"file //left/x {plain(b'left')}"
        self.write("x", "left")
        self.ask("start x", left, "failed x")
        self.assertEqual(self.ask("look", "edited"), ["ok 1", "edited"])
        self.write("x", "1")
        self.assertEqual(self.ask("look", "edited"), ["ok 1", "edited"])
        self.write("x", "by hand")
        self.assertEqual(self.ask("look", "edited"), ["ok 1", "edited x"])
        self.assertEqual(self.ask("gone //left/x", "edited"), ["ok", "edited"])

    def test_are_the_same_for_the_next_server(self) -> None:
        self.write("x", "by hand")
        self.ask("look")
        self.one.close()
        self.end_servers()
        self.serve(idle=60)
        self.one = self.client()
        self.assertEqual(self.ask("edited"), ["edited x"])

    def test_have_their_content_as_a_source(self) -> None:
        name = "//edited/x"
        self.assertEqual(self.ask(f"look {name}", f"state {name}")[1], "idle lock - file -")
        self.ask("lock all", "start all", f"ifchange all {name}", "done all -")
        self.write("x", "by hand")
        self.assertEqual(self.ask("look", "why all"), ["ok 2", f"changed {name} all"])
        self.assertEqual(self.ask(f"state {name}")[0], f"idle lock - file {plain(b'by hand')}")
        self.write("x", "1")
        self.assertEqual(self.ask("look", "why all"), ["ok 2", "clean"])


class Late(ServedTree):
    def setUp(self) -> None:
        super().setUp()
        self.write("a", "1")
        self.serve(idle=60)
        self.one = self.client()
        self.time = os.stat(os.path.join(self.top, "a")).st_ctime_ns

    def test_are_files_that_changed_at_a_time_or_after_it(self) -> None:
        for time, answer in (
            (0, "late a"),
            (self.time, "late a"),
            (self.time + 1, "late"),
            (FAR, "late"),
        ):
            self.assertEqual(self.one.talk(f"1 late {time} a none"), [f"1 {answer}"], time)

    def test_are_links_whose_file_changed(self) -> None:
        os.symlink("b", os.path.join(self.top, "link"))
        time = os.lstat(os.path.join(self.top, "link")).st_ctime_ns + 1
        self.assertEqual(self.one.talk(f"1 late {time} link"), ["1 late"])
        self.write("b", "1")
        os.utime(os.path.join(self.top, "b"))
        while os.stat(os.path.join(self.top, "b")).st_ctime_ns < time:
            os.utime(os.path.join(self.top, "b"))
        self.assertEqual(self.one.talk(f"1 late {time} link"), ["1 late link"])

    def test_are_no_targets_and_no_names_of_redo(self) -> None:
        lines = ("1 lock a", "2 start a", "3 late 0 a", "4 failed a", "5 late 0 a //always %zz")
        self.assertEqual(
            self.one.talk(*lines), ["1 granted 1", "2 ok", "3 late", "4 ok", "5 late"]
        )

    def test_without_a_time_and_names_is_a_fault(self) -> None:
        for words in ("late", "late 5", "late x a", "late -1 a", "late a 5"):
            self.assertEqual(self.one.talk(f"1 {words}"), ["1 fault wrong-words"], words)


class Requests(unittest.TestCase):
    def test_of_all_or_of_some(self) -> None:
        self.assertEqual(requests.edited(None).lines, (b"edited",))
        self.assertEqual(requests.edited(["a", b"b"]).lines, (b"edited a b",))
        self.assertEqual(requests.edited([]).lines, ())
        self.assertEqual(requests.late(5, ["a", b"b"]).lines, (b"late 5 a b",))
        self.assertEqual(requests.late(5, []).lines, ())
        with self.assertRaises(BadName):
            requests.late(5, ["a b"])

    def test_of_many_names_are_several_lines(self) -> None:
        names = [b"n%03d" % number for number in range(100)]
        for request, head in (
            (requests.edited(names), b"edited "),
            (requests.late(5, names), b"late 5 "),
        ):
            self.assertEqual([line[: len(head)] for line in request.lines], [head, head])
            words = b" ".join(line[len(head) :] for line in request.lines).split()
            self.assertEqual(words, names)

    def test_read_the_names_of_all_answers(self) -> None:
        names = [b"n%03d" % number for number in range(100)]
        edited = requests.edited(names).result([b"edited b a", b"edited"])
        self.assertEqual(list(edited), [b"a", b"b"])
        self.assertEqual(list(requests.late(5, names).result([b"late", b"late b"])), [b"b"])
        self.assertEqual(list(requests.late(5, []).result([])), [])
        with self.assertRaises(FaultError):
            requests.late(5, ["a"]).result([b"fault wrong-words"])


if __name__ == "__main__":
    unittest.main()
