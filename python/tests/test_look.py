"""What the server finds when it looks at files."""
import os

import beside  # noqa: F401
from digests import link, plain
from redodb.names import name_of
from redodb.stamps import stamp_of
from served import ServedTree


class Looking(ServedTree):
    def setUp(self) -> None:
        super().setUp()
        self.serve(idle=60)
        self.one = self.client()

    def stamp(self, name: str) -> str:
        return stamp_of(os.fsencode(os.path.join(self.top, name))) or "-"

    def state(self, name: str) -> str:
        return self.one.talk(f"9 state {name}")[0].removeprefix("9 ")

    def test_tells_what_is_new_changed_and_gone(self) -> None:
        self.write("d/new", "1")
        self.write("changed", "1")
        self.write("same", "1")
        self.assertEqual(
            self.one.talk(
                "1 file gone 5",
                "2 file changed 5",
                f"3 file same {self.stamp('same')}",
                "4 gone d/new",
                "5 look",
                "6 look",
            ),
            ["1 ok", "2 ok", "3 ok", "4 ok", "5 ok 3", "6 ok 0"],
        )
        self.assertEqual(self.state("d/new"), f"idle lock - file {self.stamp('d/new')}")
        self.assertEqual(self.state("changed"), f"idle lock - file {self.stamp('changed')}")
        self.assertEqual(self.state("gone"), "idle lock - file -")
        self.assertEqual(len(self.log()), 6)

    def test_is_not_needed_for_what_the_last_build_made(self) -> None:
        self.assertEqual(
            self.one.talk(
                "1 made a",
                "2 lock a",
                "3 start a",
                "4 done a 1",
                "5 file a 2",
                "6 start a",
                "7 made a",
                "8 failed a",
                "9 lock b",
                "10 start b",
                "11 done b -",
            ),
            [
                "1 made -",
                "2 granted 1",
                "3 ok",
                "4 ok",
                "5 ok",
                "6 ok",
                "7 made 1",
                "8 ok",
                "9 granted 1",
                "10 ok",
                "11 ok",
            ],
        )
        self.assertEqual(
            self.one.talk("1 made", "2 made a b", "3 made b", "4 made c"),
            ["1 fault wrong-words", "2 fault wrong-words", "3 made -", "4 made -"],
        )
        self.one.close()
        self.end_servers()
        self.serve(idle=60)
        self.assertEqual(self.client().talk("1 made a", "2 made b"), ["1 made 1", "2 made -"])

    def test_at_some_names_leaves_the_others(self) -> None:
        self.write("a")
        self.write("b")
        self.assertEqual(
            self.one.talk("1 file a 1", "2 file b 1", "3 look b none", "4 look none"),
            ["1 ok", "2 ok", "3 ok 1", "4 ok 0"],
        )
        self.assertEqual(self.state("a"), "idle lock - file 1")
        self.assertEqual(self.state("b"), f"idle lock - file {self.stamp('b')}")

    def test_learns_of_a_name_that_was_not_known(self) -> None:
        self.write("a b")
        self.assertEqual(
            name_of(os.path.join(os.fsencode(self.top), b"a b"), os.fsencode(self.top)), b"a%20b"
        )
        self.assertEqual(self.one.talk("1 look a%20b", "2 look"), ["1 ok 1", "2 ok 0"])
        self.assertEqual(self.state("a%20b"), f"idle lock - file {self.stamp('a b')}")

    def test_is_at_each_name_that_was_spoken_of(self) -> None:
        for name in ("dep", "created", "locked"):
            self.write(name)
        self.assertEqual(
            self.one.talk(
                "1 lock locked",
                "2 lock t",
                "3 start t",
                "4 ifchange t dep",
                "5 ifcreate t created",
                "6 done t -",
                "7 look",
            ),
            ["1 granted 1", "2 granted 1", "3 ok", "4 stale dep", "5 ok", "6 ok", "7 ok 3"],
        )
        self.assertIn(self.one.talk("8 why t")[0], ("8 changed dep t", "8 appeared created t"))

    def test_finds_a_target_that_was_changed_by_hand(self) -> None:
        self.write("t", "built")
        self.assertEqual(
            self.one.talk(
                "1 lock t", "2 start t", f"3 done t {self.stamp('t')}", "4 look", "5 why t"
            ),
            ["1 granted 1", "2 ok", "3 ok", "4 ok 0", "5 clean"],
        )
        self.write("t", "changed by hand")
        self.assertEqual(self.one.talk("6 look", "7 why t"), ["6 ok 1", "7 edited t t"])

    def test_at_all_leaves_what_is_building(self) -> None:
        self.write("t", "half")
        self.write("done", "half")
        self.write("failed", "half")
        for name in ("t", "done", "failed"):
            self.assertEqual(
                self.one.talk(f"1 lock {name}", f"2 start {name}"), ["1 granted 1", "2 ok"]
            )
        self.assertEqual(self.one.talk("3 look"), ["3 ok 0"])
        self.assertEqual(
            self.one.talk("4 done done 1", "5 failed failed", "6 look"), ["4 ok", "5 ok", "6 ok 2"]
        )
        self.assertEqual(self.state("t"), "building 1 lock 1 file -")

    def test_leaves_the_name_that_is_no_file(self) -> None:
        self.assertEqual(
            self.one.talk("1 file //always 7", "2 look", "3 look //always"),
            ["1 ok", "2 ok 0", "3 ok 0"],
        )
        self.assertEqual(self.state("//always"), "idle lock - file 7")

    def test_takes_folders_links_and_names_outside(self) -> None:
        self.write("top/in", "x")
        self.write("beside", "x")
        os.symlink(b"../beside", os.path.join(self.top, "top", "link"))
        inner = self.places
        self.end_servers()
        self.servers.clear()
        self.use_top(os.path.join(self.top, "top"))
        self.assertNotEqual(inner.top, self.places.top)
        self.serve(idle=60)
        self.one = self.client()
        self.assertEqual(self.one.talk("1 look . in link ../beside .."), ["1 ok 5"])
        self.assertEqual(self.state(".."), "idle lock - file folder")
        self.assertEqual(self.state("link"), f"idle lock - file {link(b'../beside', plain(b'x'))}")
        self.assertEqual(self.state("../beside"), f"idle lock - file {self.stamp('../beside')}")

    def test_at_what_is_no_name_is_a_fault_and_says_nothing(self) -> None:
        self.write("a")
        for bad in ("#x", "-", "%", "%2d", "a" * 256, "x%2Fy", ""):
            with self.subTest(bad=bad):
                self.assertEqual(self.one.talk(f"1 look a {bad}"), ["1 fault bad-name"])
        self.assertEqual(self.state("a"), "idle lock - file -")

    def test_at_all_passes_over_names_that_no_path_has(self) -> None:
        self.write("a")
        self.assertEqual(
            self.one.talk("1 file % 1", "2 file a 1", "3 look"), ["1 ok", "2 ok", "3 ok 1"]
        )
        self.assertEqual(self.state("%"), "idle lock - file 1")

    def test_stands_in_its_place_among_the_lines(self) -> None:
        self.write("a")
        stamp = self.stamp("a")
        self.assertEqual(
            self.one.talk(
                "1 file a 1",
                "2 look a",
                "3 state a",
                "4 file a 2",
                "5 state a",
                "6 look",
                "7 state a",
                "8 gone a",
                "9 look a",
                "10 look a",
                "11 state a",
            ),
            [
                "1 ok",
                "2 ok 1",
                f"3 idle lock - file {stamp}",
                "4 ok",
                "5 idle lock - file 2",
                "6 ok 1",
                f"7 idle lock - file {stamp}",
                "8 ok",
                "9 ok 1",
                "10 ok 0",
                f"11 idle lock - file {stamp}",
            ],
        )

    def test_answers_in_turn_where_nothing_differs(self) -> None:
        self.assertEqual(
            self.one.talk("1 lock t", "2 look a", "3 start t", "4 look %", "5 done t -", "6 look t"),
            ["1 granted 1", "2 ok 0", "3 ok", "4 fault bad-name", "5 ok", "6 ok 0"],
        )

    def test_waits_for_the_stamp_that_is_on_its_way(self) -> None:
        self.write("t")
        stamp = self.stamp("t")
        self.assertEqual(
            self.one.talk("1 lock t", "2 start t", f"3 done t {stamp}", "4 look t", "5 look"),
            ["1 granted 1", "2 ok", "3 ok", "4 ok 0", "5 ok 0"],
        )

    def test_goes_by_what_another_session_said(self) -> None:
        self.write("a")
        self.assertEqual(self.client().talk(f"1 file a {self.stamp('a')}"), ["1 ok"])
        self.assertEqual(self.one.talk("1 look"), ["1 ok 0"])


class AfterARestart(ServedTree):
    def test_the_log_says_what_is_known(self) -> None:
        self.serve(idle=0.1)
        for name in ("same", "changed", "gone", "dep"):
            self.write(name, "1")
        client = self.client()
        self.assertEqual(
            client.talk(
                "1 look same changed gone",
                "2 lock t",
                "3 start t",
                "4 ifchange t dep",
                "5 lock half",
                "6 start half",
            ),
            ["1 ok 3", "2 granted 1", "3 ok", "4 stale dep", "5 granted 1", "6 ok"],
        )
        client.close()
        self.assertEqual(self.servers[0].wait(20), 0)
        with open(self.places.log, "ab") as log:
            log.write(b"1 file torn 1 => ")
        self.write("changed", "22")
        os.unlink(os.path.join(self.top, "gone"))
        self.write("half", "1")
        self.serve(idle=60)
        client = self.client()
        self.assertEqual(client.talk("1 look", "2 state same")[0], "1 ok 4")
        self.assertEqual(
            client.talk("1 look", "2 state gone", "3 state torn"),
            ["1 ok 0", "2 idle lock - file -", "3 idle lock - file -"],
        )
        self.assertEqual(
            [line.split()[2] for line in self.log()[-4:]], ["changed", "gone", "dep", "half"]
        )
