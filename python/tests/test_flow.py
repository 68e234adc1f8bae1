"""Lines: many, long and torn ones, and clients that don't read their answers."""
import os
import threading
import time
from pathlib import Path

import beside  # noqa: F401
from redodb import Client
from served import PATIENCE, ServedTree, eventually


class Lines(ServedTree):
    def setUp(self) -> None:
        super().setUp()
        self.server = self.serve(idle=60)

    def test_are_answered_as_redodb_live_answers_them(self) -> None:
        self.assertEqual(
            self.client().talk(
                "1 file a.c 10",
                "2 lock a.o",
                "3 lock a.o",
                "4 start a.o",
                "5 ifchange a.o a.c",
                "6 ifcreate a.o a.c",
                "7 stamp a.o 616263",
                "8 always a.o",
                "9 done a.o 20",
                "10 targets",
                "11 sources",
                "12 ood",
                "13 why a.o",
                "14 deps a.o",
                "15 state a.o",
                "16 gone a.c",
                "17 unlock b",
                "18 unlock a.o",
            ),
            [
                "1 ok",
                "2 granted 1",
                "3 busy 1",
                "4 ok",
                "5 ok",
                "6 refused exists a.c",
                "7 stamped a9993e364706816aba3e25717850c26c9cd0d89d",
                "8 ok",
                "9 ok",
                "10 targets a.o",
                "11 sources a.c",
                "12 ood a.o",
                "13 always a.o a.o",
                "14 change 1 a.c created 0 always 1",
                "15 built lock 1 file 20",
                "16 ok",
                "17 refused not-locked",
                "18 ok",
            ],
        )

    def test_that_are_faulty_are_faults(self) -> None:
        self.assertEqual(
            self.client().talk(
                "",
                "x",
                "-1 ood",
                "1",
                "2 ",
                "3 oood",
                "4 file a",
                "5 file a -",
                "6 lock #a",
                "7 7 lock a",
                "8 lock a\t",
                "9 stamp a xyz",
                "10 end now",
                "11 file  a 1",
                " 12 ood",
                "013 state a",
            ),
            [
                "0 fault bad-id",
                "0 fault bad-id",
                "0 fault bad-id",
                "1 fault unknown-command",
                "2 fault unknown-command",
                "3 fault unknown-command",
                "4 fault wrong-words",
                "5 fault bad-stamp",
                "6 fault bad-name",
                "7 fault unknown-command",
                "8 fault bad-byte",
                "9 fault bad-hex",
                "10 fault wrong-words",
                "11 fault wrong-words",
                "0 fault bad-id",
                "013 idle lock - file -",
            ],
        )

    def test_may_come_byte_by_byte(self) -> None:
        client = self.client()
        for byte in b"1 lock a\n22 state a\n":
            client.socket.sendall(bytes([byte]))
            time.sleep(0.001)
        self.assertEqual(client.lines(2), ["1 granted 1", "22 idle lock 1 file -"])

    def test_without_an_end_are_none(self) -> None:
        one, two = self.client(), self.client()
        one.socket.sendall(b"1 lock a\n2 lock b")
        self.assertEqual(one.line(), "1 granted 1")
        one.close()
        self.assertTrue(eventually(lambda: two.talk("1 state a") == ["1 idle lock - file -"]))
        self.assertEqual(two.talk("2 lock b"), ["2 granted 1"])

    def test_may_be_too_long(self) -> None:
        client = self.client()
        for size in (9_000, 1 << 20, 3 << 20):
            self.assertEqual(
                client.talk(f"1 lock {'a' * size}", "2 state a"),
                ["1 fault line-too-long", "2 idle lock - file -"],
            )
            self.assertEqual(
                client.talk(f"1 look {'a ' * (size // 2)}", "2 state a")[1], "2 idle lock - file -"
            )
        self.assertEqual(client.talk(f"1 look {'a ' * (1 << 20)}"), ["1 fault line-too-long"])

    def test_by_the_hundred_thousand_take_little_time_of_the_server(self) -> None:
        with Client(self.top, timeout=60) as client:
            before = self.processor_time()
            answers = client.ask_all(
                [b"file name%d %d" % (number % 1000, number) for number in range(100_000)]
            )
            self.assertLess(self.processor_time() - before, 2)
            self.assertEqual(set(answers), {b"ok"})
            self.assertEqual(client.state("name999").stamp, "99999")

    def test_of_several_clients_at_once_come_to_each_in_its_order(self) -> None:
        wrong: list[object] = []

        def talk(number: int) -> None:
            with Client(self.top, timeout=60) as client:
                for turn in range(5):
                    names = [b"c%d-%d" % (number, name) for name in range(2000)]
                    client.ask_all([b"file %b %d" % (name, turn) for name in names])
                    got = client.ask_all([b"state " + name for name in names])
                    wrong.extend(state for state in got if state != b"idle lock - file %d" % turn)

        threads = [threading.Thread(target=talk, args=(number,)) for number in range(6)]
        for thread in threads:
            thread.start()
        for thread in threads:
            thread.join()
        self.assertEqual(wrong, [])

    def test_of_a_client_that_does_not_read_wait_and_are_all_answered(self) -> None:
        deaf, other = self.client(), self.client()
        deaf.socket.setblocking(False)
        text = b"".join(b"%d state name%d\n" % (number, number) for number in range(200_000))
        sent, last = 0, time.monotonic()
        while time.monotonic() - last < 0.5:
            try:
                sent += deaf.socket.send(text[sent : sent + 65536])
                last = time.monotonic()
            except BlockingIOError:
                time.sleep(0.01)
        self.assertLess(sent, len(text))
        self.assertLess(self.memory(), 100_000)
        self.assertEqual(other.talk("1 lock a"), ["1 granted 1"])
        deaf.socket.settimeout(PATIENCE)
        sender = threading.Thread(target=deaf.socket.sendall, args=(text[sent:],))
        sender.start()
        for number in range(200_000):
            if (line := deaf.line()) != f"{number} idle lock - file -":
                self.fail(f"{number}: {line}")
        sender.join()

    def test_with_long_answers_that_are_not_read_take_little_memory(self) -> None:
        names = [f"{number}{'x' * 40}" for number in range(2000)]
        other = self.client()
        for name in names:
            other.send(f"1 lock {name}", f"2 start {name}", f"3 always {name}", f"4 done {name} 1")
        self.assertEqual(other.lines(4 * len(names))[-1], "4 ok")
        deaf = self.client()
        deaf.send(*["1 ood"] * 3000)
        self.assertEqual(other.talk("1 state a"), ["1 idle lock - file -"])
        time.sleep(1)
        self.assertLess(self.memory(), 150_000)
        length = len("1 ood") + sum(len(name) + 1 for name in names)
        self.assertEqual({len(deaf.line()) for _ in range(3000)}, {length})

    def test_of_a_client_that_does_not_read_end_with_it(self) -> None:
        deaf, other = self.client(), self.client()
        self.assertEqual(deaf.talk("1 lock a"), ["1 granted 1"])
        deaf.socket.setblocking(False)
        other.send("1 wait a -")
        blocked = 0
        while blocked < 20:
            try:
                deaf.socket.send(b"2 state a\n" * 5000)
            except BlockingIOError:
                blocked += 1
                time.sleep(0.01)
        deaf.close()
        self.assertEqual(other.line(), "1 granted 2")

    def processor_time(self) -> float:
        fields = Path(f"/proc/{self.server.pid}/stat").read_text().rsplit(")", 1)[1].split()
        return (int(fields[11]) + int(fields[12])) / os.sysconf("SC_CLK_TCK")

    def memory(self) -> int:
        """Return the server's memory in KiB."""
        status = Path(f"/proc/{self.server.pid}/status").read_text()
        return int(status.split("VmRSS:")[1].split()[0])
