"""Clients that mean harm, or are about to end: they hold nobody up, and take little of the server."""
import contextlib
import os
import random
import resource
import signal
import socket
import struct
import time
import unittest
from pathlib import Path

import beside  # noqa: F401
from served import RUNS, Raw, ServedTree, eventually

LITTLE = 64 << 10
"""So many KiB the server may take, whatever clients send."""


RESET = struct.pack("ii", 1, 0)


class Hostile(ServedTree):
    def setUp(self) -> None:
        super().setUp()
        self.server = self.serve(idle=60)

    def memory(self) -> int:
        """Return the most that the server took, in KiB."""
        status = Path(f"/proc/{self.server.pid}/status").read_text()
        return int(status.split("VmHWM:")[1].split()[0])

    def files(self, process: int) -> set[str]:
        """Return what a process has open."""
        folder = Path(f"/proc/{process}/fd")
        found = set()
        for file in folder.iterdir():
            with contextlib.suppress(FileNotFoundError):  # closed since
                found.add(os.readlink(file))
        return found

    def asker(self) -> Raw:
        """Return a new connection without a session."""
        raw = self.raw()
        raw.send("0 question")
        while raw.line() != "session 0":
            pass
        return raw

    def processor_time(self) -> float:
        fields = Path(f"/proc/{self.server.pid}/stat").read_text().rsplit(")", 1)[1].split()
        return (int(fields[11]) + int(fields[12])) / os.sysconf("SC_CLK_TCK")

    def test_a_gigabyte_without_an_end_is_a_line_that_is_too_long(self) -> None:
        client, other = self.client(), self.client()
        client.socket.sendall(b"1 file ")
        block = b"a" * (1 << 20)
        for _ in range(1024):
            client.socket.sendall(block)
        self.assertEqual(other.talk("1 lock a"), ["1 granted 1"])
        client.send(" 1", "2 lock b")
        self.assertEqual(client.lines(2), ["1 fault line-too-long", "2 granted 1"])
        self.assertLess(self.memory(), LITTLE)

    def test_lines_of_those_who_wait_for_a_session_are_not_read_without_end(self) -> None:
        clients = [self.client() for _ in range(RUNS)]
        waiting = self.raw()
        waiting.socket.setblocking(False)
        sent, last = 0, time.monotonic()
        while time.monotonic() - last < 0.3:
            try:
                sent += waiting.socket.send(b"1 state a\n" * 1000)
                last = time.monotonic()
            except BlockingIOError:
                time.sleep(0.01)
        self.assertLess(sent, 4 << 20)
        self.assertLess(self.memory(), LITTLE)
        self.assertEqual(clients[0].talk("1 lock a"), ["1 granted 1"])

    def test_any_bytes_are_lines_or_faults(self) -> None:
        drawn = random.Random(5)
        words = [b"lock", b"look", b"wait", b"forget", b"made", b"edited", b"late", b"group"]
        words += [b"ungroup", b"session", b"file", b"ood", b"=>", b" => ", b"%", b"%zz", b"\0", b""]
        words += [b"//edited/", b"//edited/%", b"//left/a", b"-", b"99999999999999999999999"]
        client, other = self.client(), self.client()
        for turn in range(300):
            count = drawn.randrange(1, 6)
            line = b" ".join(drawn.choice(words) for _ in range(count)) + drawn.randbytes(turn % 7)
            line = line.replace(b"\n", b"")
            client.socket.sendall(b"%d " % turn + line + b"\n")
            client.socket.sendall(drawn.randbytes(turn % 11).replace(b"\n", b"") + b"\n")
        client.send("777777 state none")
        while (line_back := client.line()) != "777777 idle lock - file -":
            self.assertRegex(line_back, r"\A[0-9]+ ")
        self.assertEqual(other.talk("1 look none", "2 lock mine"), ["1 ok 0", "2 granted 1"])

    def test_a_thousand_connections_wait_or_are_served(self) -> None:
        soft, hard = resource.getrlimit(resource.RLIMIT_NOFILE)
        resource.setrlimit(resource.RLIMIT_NOFILE, (min(hard, 4096), hard))
        self.addCleanup(resource.setrlimit, resource.RLIMIT_NOFILE, (soft, hard))
        clients = [self.client() for _ in range(RUNS)]
        waiting = [self.raw() for _ in range(1000)]
        for one in waiting[::2]:
            one.send("1 lock a")
        self.assertEqual(clients[5].talk("1 lock b", "2 look")[0], "1 granted 1")
        before = self.processor_time()
        time.sleep(0.5)
        self.assertLess(self.processor_time() - before, 0.1)
        self.assertLess(self.memory(), LITTLE)
        for one in [*clients, *waiting[1:]]:
            one.close()
        self.assertEqual(waiting[0].line().split()[0], "session")
        self.assertEqual(waiting[0].line(), "1 granted 1")

    def test_more_connections_than_files_wait_until_others_end(self) -> None:
        self.end_servers()
        self.servers.clear()
        soft, hard = resource.getrlimit(resource.RLIMIT_NOFILE)
        resource.setrlimit(resource.RLIMIT_NOFILE, (100, hard))
        try:
            self.server = self.serve(idle=60)
        finally:
            resource.setrlimit(resource.RLIMIT_NOFILE, (soft, hard))
        clients = [self.client() for _ in range(50)]
        self.write("a")
        others = [self.raw() for _ in range(200)]
        self.assertEqual(clients[0].talk("1 look a"), ["1 ok 1"])
        for one in (*clients, *others[:-1]):
            one.close()
        self.assertEqual(others[-1].line().split()[0], "session")
        self.assertEqual(others[-1].talk("1 look a"), ["1 ok 0"])

    def test_answers_that_nobody_reads_are_bounded(self) -> None:
        names = [f"{number:05}{'x' * 240}" for number in range(8000)]
        client = self.client()
        for name in names:
            client.send(f"1 lock {name}", f"2 start {name}", f"3 always {name}", f"4 done {name} 1")
            client.lines(4)
        deaf = [self.asker() for _ in range(100)]
        for one in deaf:
            one.send("1 ood")
        self.assertEqual(client.talk("1 state a"), ["1 idle lock - file -"])
        time.sleep(1)
        self.assertLess(self.memory(), 300 << 10)
        self.assertEqual(client.talk("1 state a"), ["1 idle lock - file -"])

    def test_groups_without_end_are_not_kept(self) -> None:
        client = self.client()
        numbers = range(100_000_000, 100_070_000)
        answers = []
        for first in range(0, len(numbers), 1000):
            some = numbers[first : first + 1000]
            answers += client.talk(*[f"1 group {number} 1 1 -" for number in some])
        kept = answers.index("1 fault memory")
        self.assertEqual((kept, answers[kept:].count("1 ok")), (1 << 16, 0))
        self.assertLess(self.memory(), LITTLE)
        client.close()
        self.assertRegex(self.client().talk("1 lock a")[0], r"\A1 granted 1\Z")

    def test_clients_that_end_in_the_middle_leave_nothing(self) -> None:
        first = self.client()  # the server has opened all that it keeps
        before = len(self.files(self.server.pid))
        first.close()
        texts = [b"", b"1", b"1 lock a", b"1 lock a\n", b"1 lock a\n2 start a\n3 wait b a\n4 look"]
        texts += [b"0 quest", b"0 question\n1 turn\n", b"1 ood\n" * 2000, b"1 wait a -\n" * 100]
        for turn in range(300):
            raw = Raw(self.places)
            if turn % 3 == 0:
                raw.socket.setsockopt(socket.SOL_SOCKET, socket.SO_LINGER, RESET)
            raw.socket.sendall(texts[turn % len(texts)])
            raw.close()
        client = self.raw()
        self.assertRegex(client.line(), r"\Asession [0-9]+\Z")
        self.assertTrue(eventually(lambda: client.talk("1 lock a")[0].startswith("1 granted ")))
        self.assertTrue(eventually(lambda: len(self.files(self.server.pid)) <= before))
        self.assertIsNone(self.server.poll())
        client.close()
        self.assertEqual(self.client().talk("1 state b"), ["1 idle lock - file -"])

    def test_what_was_sent_before_an_end_is_answered(self) -> None:
        client = self.client()
        client.send(*[f"{number} ood" for number in range(1500)], "1500 lock a")
        client.socket.shutdown(socket.SHUT_WR)
        wanted = [*[f"{number} ood" for number in range(1500)], "1500 granted 1", ""]
        self.assertEqual(client.lines(1502), wanted)

    def test_redodb_live_has_no_file_of_the_server(self) -> None:
        self.client()
        children = Path(f"/proc/{self.server.pid}/task/{self.server.pid}/children").read_text()
        log = os.fsdecode(self.places.log)
        found = {name for name in self.files(int(children)) if not name.startswith("pipe:")}
        self.assertEqual(found - {"/dev/null"}, {log})

    def test_the_server_has_no_file_of_the_asker(self) -> None:
        self.end_servers()
        self.servers.clear()
        reading, writing = os.pipe()
        self.addCleanup(os.close, reading)
        os.set_inheritable(writing, True)
        command = [self.server_program, "--top", self.top, "--idle", "60", "--detach"]
        environment = {**os.environ, "REDODB_LIVE": self.program}
        _, status = os.waitpid(os.posix_spawn(command[0], command, environment), 0)
        self.assertEqual(status, 0)
        os.close(writing)
        self.assertEqual(os.read(reading, 1), b"")
        self.assertEqual(self.client().talk("1 lock a"), ["1 granted 1"])
        os.kill(int(Path(os.fsdecode(self.places.lock)).read_text()), signal.SIGTERM)
