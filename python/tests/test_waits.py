"""Waiting for locks: who is served when, rings, and what is given up."""
import time
from pathlib import Path

import beside  # noqa: F401
from served import Raw, ServedTree, eventually


class Waiting(ServedTree):
    def setUp(self) -> None:
        super().setUp()
        self.serve(idle=60)

    def test_for_a_free_lock_is_granted_at_once(self) -> None:
        self.assertEqual(
            self.client().talk("1 wait a -", "2 wait b a", "3 wait c x"),
            ["1 granted 1", "2 granted 1", "3 granted 1"],
        )

    def test_is_served_in_order(self) -> None:
        holder = self.client()
        self.assertEqual(holder.talk("1 lock a"), ["1 granted 1"])
        clients = [self.client() for _ in range(5)]
        for client in clients:
            client.send("7 wait a -")
            self.assertTrue(client.is_silent(0.05))
        self.assertEqual(holder.talk("2 unlock a"), ["2 ok"])
        for number, client in enumerate(clients, 2):
            self.assertEqual(client.line(), f"7 granted {number}")
            for other in clients[number - 1 :]:
                self.assertTrue(other.is_silent(0.02))
            self.assertEqual(client.talk("8 unlock a"), ["8 ok"])

    def test_is_served_in_order_where_holders_are_lost(self) -> None:
        holder = self.client()
        self.assertEqual(holder.talk("1 lock a"), ["1 granted 1"])
        clients = [self.client() for _ in range(4)]
        for client in clients:
            client.send("7 wait a -")
            self.assertTrue(client.is_silent(0.05))
        clients.pop(1).close()
        holder.close()
        for number, client in enumerate(clients, 2):
            self.assertEqual(client.line(), f"7 granted {number}")
            client.close()

    def test_lets_a_client_go_on_meanwhile(self) -> None:
        one, two = self.client(), self.client()
        self.assertEqual(one.talk("1 lock a"), ["1 granted 1"])
        two.send("1 wait a -", "2 lock b", "3 unlock b")
        self.assertEqual(two.lines(2), ["2 granted 1", "3 ok"])
        one.send("2 unlock a")
        self.assertEqual(two.line(), "1 granted 2")

    def test_comes_before_a_lock_that_was_taken_in_between(self) -> None:
        """A plain lock may come between; those who wait keep their places."""
        one, two, three = self.client(), self.client(), self.client()
        self.assertEqual(one.talk("1 lock a"), ["1 granted 1"])
        two.send("1 wait a -")
        self.assertTrue(two.is_silent(0.05))
        three.send("1 wait a -")
        self.assertTrue(three.is_silent(0.05))
        self.assertEqual(one.talk("2 unlock a", "3 lock a"), ["2 ok", "3 granted 2"])
        self.assertTrue(two.is_silent(0.05))
        self.assertEqual(one.talk("4 unlock a"), ["4 ok"])
        self.assertEqual(two.line(), "1 granted 3")
        self.assertEqual(two.talk("2 unlock a"), ["2 ok"])
        self.assertEqual(three.line(), "1 granted 4")

    def test_in_the_same_session_is_parked_too(self) -> None:
        client = self.client()
        self.assertEqual(client.talk("1 wait a -"), ["1 granted 1"])
        client.send("2 wait a -")
        self.assertTrue(client.is_silent())
        client.send("3 unlock a")
        self.assertEqual(sorted(client.lines(2)), ["2 granted 2", "3 ok"])

    def test_that_is_faulty_is_a_fault(self) -> None:
        self.assertEqual(
            self.client().talk(
                "1 wait",
                "2 wait a",
                "3 wait a - x",
                "4 wait - a",
                "5 wait #a a",
                "6 wait a =>",
                "7 wait a #",
                "8 wait  a",
                "9 wait " + "a" * 256 + " -",
            ),
            [
                "1 fault wrong-words",
                "2 fault wrong-words",
                "3 fault wrong-words",
                "4 fault bad-name",
                "5 fault bad-name",
                "6 fault bad-name",
                "7 fault bad-name",
                "8 fault bad-name",
                "9 fault bad-name",
            ],
        )


class Rings(ServedTree):
    def setUp(self) -> None:
        super().setUp()
        self.serve(idle=60)

    def parked(self, client: Raw, line: str) -> None:
        client.send(line)
        self.assertTrue(client.is_silent(0.05), line)

    def test_of_one_name(self) -> None:
        self.assertEqual(
            sorted(self.client().talk("1 wait a a", "2 wait a -", "3 wait a a")),
            ["1 ring a a", "2 granted 1", "3 ring a a"],
        )

    def test_of_one_session(self) -> None:
        client = self.client()
        self.assertEqual(
            client.talk("1 wait a -", "2 wait b a", "3 wait c b", "4 wait a c"),
            ["1 granted 1", "2 granted 1", "3 granted 1", "4 ring a b c a"],
        )

    def test_of_several_sessions(self) -> None:
        one, two, three = self.client(), self.client(), self.client()
        for client, name in ((one, "a"), (two, "b"), (three, "c")):
            self.assertEqual(client.talk(f"1 wait {name} -"), ["1 granted 1"])
        self.parked(one, "2 wait b a")
        self.parked(two, "2 wait c b")
        self.assertEqual(three.talk("2 wait a c"), ["2 ring a b c a"])
        self.assertEqual(three.talk("3 failed c", "4 unlock c"), ["3 refused not-building", "4 ok"])
        self.assertEqual(two.line(), "2 granted 2")

    def test_over_a_grant_of_another_session(self) -> None:
        one, two = self.client(), self.client()
        self.assertEqual(one.talk("1 wait a -", "2 wait b a"), ["1 granted 1", "2 granted 1"])
        self.assertEqual(two.talk("1 wait c -"), ["1 granted 1"])
        self.parked(two, "2 wait a c")
        self.assertEqual(one.talk("3 wait c b"), ["3 ring c a b c"])

    def test_are_only_where_there_is_one(self) -> None:
        one, two = self.client(), self.client()
        self.assertEqual(
            one.talk("1 wait top -", "2 wait a top", "3 wait b top", "4 wait low a"),
            [f"{n} granted 1" for n in range(1, 5)],
        )
        self.parked(one, "5 wait low b")
        self.parked(two, "1 wait top -")
        self.parked(two, "2 wait a -")

    def test_are_gone_when_the_target_is_unlocked(self) -> None:
        client = self.client()
        self.assertEqual(
            client.talk("1 wait a -", "2 wait b a", "3 unlock b", "4 wait b -"),
            ["1 granted 1", "2 granted 1", "3 ok", "4 granted 2"],
        )
        self.parked(client, "5 wait a b")
        client.send("6 unlock a")
        self.assertEqual(sorted(client.lines(2)), ["5 granted 2", "6 ok"])

    def test_are_gone_when_the_parent_is_unlocked(self) -> None:
        client = self.client()
        self.assertEqual(
            client.talk("1 wait a -", "2 wait b a", "3 unlock a", "4 wait a -"),
            ["1 granted 1", "2 granted 1", "3 ok", "4 granted 2"],
        )
        self.parked(client, "5 wait a b")

    def test_are_gone_with_a_wait_that_was_forgotten(self) -> None:
        one, two = self.client(), self.client()
        self.assertEqual(one.talk("1 wait a -"), ["1 granted 1"])
        self.assertEqual(two.talk("1 wait b -"), ["1 granted 1"])
        self.parked(one, "2 wait b a")
        one.send("3 forget b a")
        self.assertEqual(one.lines(2), ["2 forgotten", "3 ok"])
        self.parked(two, "2 wait a b")

    def test_are_gone_with_a_connection(self) -> None:
        one, two = self.client(), self.client()
        self.assertEqual(one.talk("1 wait a -"), ["1 granted 1"])
        self.assertEqual(two.talk("1 wait b -"), ["1 granted 1"])
        self.parked(one, "2 wait b a")
        one.close()
        self.assertTrue(eventually(lambda: two.talk("9 state a") == ["9 idle lock - file -"]))
        self.assertEqual(two.talk("2 wait a b"), ["2 granted 2"])


class Forgetting(ServedTree):
    def setUp(self) -> None:
        super().setUp()
        self.serve(idle=60)

    def test_gives_the_place_to_the_next(self) -> None:
        one, two, three = self.client(), self.client(), self.client()
        self.assertEqual(one.talk("1 lock a"), ["1 granted 1"])
        for client in (two, three):
            client.send("1 wait a p")
            self.assertTrue(client.is_silent(0.05))
        two.send("2 forget a p")
        self.assertEqual(two.lines(2), ["1 forgotten", "2 ok"])
        self.assertEqual(one.talk("2 unlock a"), ["2 ok"])
        self.assertEqual(three.line(), "1 granted 2")

    def test_what_is_not_waited_for_is_a_fault(self) -> None:
        one, two = self.client(), self.client()
        self.assertEqual(
            one.talk("1 lock a", "2 forget a -", "3 forget a", "4 forget"),
            ["1 granted 1", "2 fault not-waiting", "3 fault wrong-words", "4 fault wrong-words"],
        )
        two.send("1 wait a p")
        self.assertTrue(two.is_silent(0.05))
        self.assertEqual(two.talk("2 forget a -"), ["2 fault not-waiting"])
        self.assertEqual(one.talk("5 forget a p"), ["5 fault not-waiting"])

    def test_at_the_moment_of_the_grant_leaves_no_lock(self) -> None:
        client = self.client()
        client.send("1 wait a -", "2 forget a -")
        self.assertEqual(client.lines(2), ["1 forgotten", "2 ok"])
        self.assertTrue(eventually(lambda: client.talk("9 state a") == ["9 idle lock - file -"]))


class NoPolling(ServedTree):
    def test_sends_one_lock_for_each_release(self) -> None:
        noted = Path(self.top, "noted")
        self.serve(idle=5, program=self.script(f"tee '{noted}' | PROGRAM \"$@\"\n"))
        one, two = self.client(), self.client()
        self.assertEqual(one.talk("1 wait a -"), ["1 granted 1"])
        two.send("1 wait a -")
        self.assertTrue(two.is_silent(0.5))
        before = self.processor_time()
        time.sleep(1)
        self.assertLessEqual(self.processor_time() - before, 0.02)
        self.assertEqual(one.talk("2 unlock a"), ["2 ok"])
        self.assertEqual(two.line(), "1 granted 2")
        wanted = ["1024 names", "1 lock a", "2 lock a", "1 unlock a", "2 lock a"]
        eventually(lambda: noted.read_text().splitlines() == wanted)  # tee passes a line on first
        self.assertEqual(noted.read_text().splitlines(), wanted)

    def processor_time(self) -> float:
        fields = Path(f"/proc/{self.servers[0].pid}/stat").read_text().rsplit(")", 1)[1].split()
        return (int(fields[11]) + int(fields[12])) / 100
