"""The server: its place, sessions, and how it is called."""
import os
import signal
import socket
import subprocess
import sys
import unittest
from pathlib import Path

import beside  # noqa: F401
from redodb.places import package_folder
from served import PATIENCE, RUNS, Raw, ServedTree, eventually, server_or_skip


class Place(ServedTree):
    def test_is_the_owners_alone(self) -> None:
        self.serve(idle=60)
        self.assertEqual(os.stat(self.places.server).st_mode & 0o777, 0o700)
        self.assertEqual(os.stat(self.places.socket).st_mode & 0o777, 0o600)

    def test_makes_a_folder_private_that_was_not(self) -> None:
        os.makedirs(self.places.server, 0o755)
        os.chmod(self.places.server, 0o755)
        self.serve(idle=60)
        self.assertEqual(os.stat(self.places.server).st_mode & 0o777, 0o700)

    def test_a_second_server_ends_at_once(self) -> None:
        first = self.serve(idle=60)
        client = self.client()
        second = self.serve()
        self.assertEqual(second.wait(PATIENCE), 0)
        self.assertIsNone(first.poll())
        self.assertEqual(client.talk("1 lock a"), ["1 granted 1"])

    def test_a_socket_of_a_dead_server_is_taken_over(self) -> None:
        first = self.serve(idle=60)
        client = self.client()
        self.assertEqual(client.talk("1 lock a", "2 start a"), ["1 granted 1", "2 ok"])
        first.kill()
        first.wait(PATIENCE)
        self.assertTrue(os.path.exists(self.places.socket))
        self.assertEqual(client.line(), "")
        second = self.serve(idle=60)
        self.assertTrue(eventually(self.is_listening))
        self.assertEqual(
            self.client().talk("1 state a", "2 lock a"), ["1 failed lock - file -", "2 granted 2"]
        )
        self.assertIsNone(second.poll())

    def test_a_file_in_the_place_of_the_socket_is_replaced(self) -> None:
        self.places.make()
        Path(os.fsdecode(self.places.socket)).write_text("no socket")
        self.serve(idle=60)
        self.assertTrue(eventually(self.is_listening))
        self.assertEqual(self.client().talk("1 lock a"), ["1 granted 1"])

    def is_listening(self) -> bool:
        with socket.socket(socket.AF_UNIX) as one:
            try:
                one.connect(self.places.socket)
            except (ConnectionRefusedError, FileNotFoundError):
                return False
        return True


class Sessions(ServedTree):
    def test_are_so_many_and_more_wait_their_turn(self) -> None:
        self.serve(idle=60)
        clients = [self.raw() for _ in range(RUNS)]
        self.assertEqual(
            [client.line() for client in clients], [f"session {n}" for n in range(1, RUNS + 1)]
        )
        first, second, third = self.raw(), self.raw(), self.raw()
        first.send("1 lock early")
        self.assertTrue(first.is_silent())
        clients[40].close()
        self.assertEqual(first.lines(2), ["session 41", "1 granted 1"])
        second.close()
        self.assertTrue(third.is_silent())
        clients[7].close()
        self.assertEqual(third.line(), "session 8")

    def test_end_with_their_connection(self) -> None:
        self.serve(idle=60)
        watcher, one = self.client(), self.client()
        self.assertEqual(
            one.talk("1 lock a", "2 start a", "3 lock b"), ["1 granted 1", "2 ok", "3 granted 1"]
        )
        watcher.send("1 wait b -")
        one.close()
        self.assertEqual(watcher.line(), "1 granted 2")
        self.assertEqual(watcher.talk("2 state a"), ["2 failed lock - file -"])

    def test_end_where_a_client_is_killed(self) -> None:
        self.serve(idle=60)
        watcher = self.client()
        program = (
            "import sys, time; from redodb import Client; c = Client(sys.argv[1]); "
            "c.lock('a'); c.start('a'); print('there', flush=True); time.sleep(100)"
        )
        with subprocess.Popen(
            [sys.executable, "-c", program, self.top], cwd=package_folder(), stdout=subprocess.PIPE
        ) as killed:
            assert killed.stdout is not None
            self.assertEqual(killed.stdout.readline(), b"there\n")
            watcher.send("1 wait a -")
            self.assertTrue(watcher.is_silent())
            killed.send_signal(signal.SIGKILL)
            self.assertEqual(watcher.line(), "1 granted 2")
        self.assertEqual(watcher.talk("2 state a"), ["2 failed lock 1 file -"])

    def test_end_by_end_and_go_on(self) -> None:
        self.serve(idle=60)
        one, two = self.client(), self.client()
        self.assertEqual(
            one.talk("1 lock a", "2 start a", "3 lock b"), ["1 granted 1", "2 ok", "3 granted 1"]
        )
        two.send("1 wait a -")
        self.assertTrue(two.is_silent())
        self.assertEqual(one.talk("4 end", "5 lock b"), ["4 ok", "5 granted 2"])
        self.assertEqual(two.line(), "1 granted 2")
        self.assertEqual(
            self.log()[-5:],
            [
                "1 failed a => ok",
                "1 unlock a => ok",
                "1 unlock b => ok",
                "1 lock b => granted 2",
                "2 lock a => granted 2",
            ],
        )

    def test_of_a_server_that_was_killed_are_closed_by_the_next(self) -> None:
        server = self.serve(idle=60)
        self.assertEqual(self.client().talk("1 lock a", "2 start a"), ["1 granted 1", "2 ok"])
        server.kill()
        server.wait(PATIENCE)
        os.unlink(self.places.socket)
        self.serve(idle=60)
        self.assertEqual(self.client().talk("1 state a"), ["1 failed lock - file -"])


class Questions(ServedTree):
    """Clients that only ask take no session."""

    def asker(self) -> Raw:
        """Return a new connection without a session."""
        raw = self.raw()
        raw.send("0 question")
        line = raw.line()
        self.assertEqual(raw.line() if line != "session 0" else line, "session 0")
        return raw

    def test_are_answered_while_all_sessions_are_taken(self) -> None:
        self.write("a")
        self.serve(idle=60)
        clients = [self.client() for _ in range(RUNS)]
        self.assertEqual(clients[0].talk("1 lock b", "2 look a"), ["1 granted 1", "2 ok 1"])
        waiting = self.raw()
        self.assertTrue(waiting.is_silent())
        asked = self.asker().talk(
            *("1 look", "2 state b", "3 why b", "4 deps b", "5 made b", "6 ood", "7 targets"),
            *("8 sources", "9 file //always 5", "10 session", "11 users b", "12 names"),
        )
        self.assertEqual(asked[1], "2 idle lock 1 file -")
        self.assertEqual([asked[0], asked[5], asked[8]], ["1 ok 0", "6 ood", "9 ok"])
        self.assertEqual(asked[9:11], ["10 busy", "11 change 0 created 0"])
        self.assertRegex(asked[11], r"\A12 3 .*\bb - idle 0 - -")
        self.assertTrue(waiting.is_silent())

    def test_need_no_session_and_what_needs_one_is_refused(self) -> None:
        self.serve(idle=60)
        asker = self.asker()
        for request in (
            *("lock a", "unlock a", "start a", "ifchange a b", "ifcreate a b", "always a"),
            *("stamp a 00", "done a 1", "failed a", "wait a -", "forget a -", "group 99999999"),
            *("ungroup 99999999", "end", "file a 1", "gone a", "file //alway 1", "", "bogus"),
        ):
            with self.subTest(request=request):
                self.assertEqual(asker.talk(f"1 {request}"), ["1 fault no-session"])
        self.assertEqual(self.client().talk("1 state a"), ["1 idle lock - file -"])

    def test_may_be_followed_by_a_session(self) -> None:
        self.serve(idle=60)
        asker, client = self.asker(), self.client()
        self.assertEqual(
            asker.talk("1 lock a", "2 session", "3 lock a", "4 session", "5 turn", "6 state a"),
            [
                *("1 fault no-session", "2 session 2", "3 granted 1", "4 session 2"),
                *("5 session 2", "6 idle lock 2 file -"),
            ],
        )
        self.assertEqual(
            asker.talk("7 session x", "8 turn x"), ["7 fault wrong-words", "8 fault wrong-words"]
        )
        client.send("1 wait a -")
        self.assertTrue(client.is_silent())
        asker.close()
        self.assertEqual(client.line(), "1 granted 2")

    def test_may_be_followed_by_a_wait_for_a_session(self) -> None:
        self.serve(idle=60)
        clients = [self.client() for _ in range(RUNS)]
        first, second, third = self.asker(), self.asker(), self.asker()
        for asker in (first, second, third):
            asker.send("1 session", "2 turn", "3 lock a", "4 end")
            self.assertEqual(asker.line(), "1 busy")
        self.assertTrue(first.is_silent())
        second.close()
        clients[5].close()
        self.assertEqual(first.lines(3), ["2 session 6", "3 granted 1", "4 ok"])
        self.assertTrue(third.is_silent())
        first.close()
        self.assertEqual(third.lines(3), ["2 session 6", "3 granted 2", "4 ok"])

    def test_give_back_a_session_that_was_given_before_they_spoke(self) -> None:
        self.serve(idle=60)
        late = self.client()
        clients = [self.client() for _ in range(RUNS - 1)]
        waiting = self.raw()
        self.assertTrue(waiting.is_silent())
        late.send("0 question", "1 lock a", "2 state a")
        self.assertEqual(late.lines(3), ["session 0", "1 fault no-session", "2 idle lock - file -"])
        self.assertEqual(waiting.line(), "session 1")
        self.assertEqual(clients[0].talk("0 question")[0].split()[0], "session")

    def test_are_a_first_line_alone(self) -> None:
        self.serve(idle=60)
        client = self.client()
        self.assertEqual(client.talk("1 lock a", "0 question")[0], "1 granted 1")
        self.assertEqual(client.talk("2 state a"), ["2 idle lock 1 file -"])


class Idlers(ServedTree):
    """Clients that say nothing, or half of it, hold nobody up."""

    def test_hold_nobody_up(self) -> None:
        self.serve(idle=60)
        silent, half, longer, halved = (self.raw() for _ in range(4))
        half.socket.sendall(b"1 lock")
        longer.socket.sendall(b"0 question")
        halved.socket.sendall(b"1 lock x\n2 start")
        gone = self.raw()
        gone.socket.sendall(b"0 ques")
        gone.close()
        client = self.client()
        self.assertEqual(
            client.talk("1 lock a", "2 look", "3 ood"), ["1 granted 1", "2 ok 0", "3 ood"]
        )
        halved.close()
        client.send("4 wait x -")
        self.assertEqual(client.line(), "4 granted 2")
        half.socket.sendall(b" b\n")
        self.assertEqual(half.lines(2), ["session 2", "1 granted 1"])
        self.assertFalse(silent.is_silent())


class Call(unittest.TestCase):
    def call(self, *words: str) -> subprocess.CompletedProcess[str]:
        return subprocess.run(
            [server_or_skip(), *words],
            capture_output=True,
            text=True,
            timeout=PATIENCE,
            check=False,
        )

    def test_for_help_and_version_is_answered(self) -> None:
        helped = self.call("--help")
        self.assertEqual((helped.returncode, helped.stderr), (0, ""))
        usage = r"\Ausage: redo-server \[--top DIR\] \[--idle SECONDS\]"
        self.assertRegex(helped.stdout, usage)
        self.assertRegex(self.call("--version").stdout, r"\Aredo-server [0-9.]+\n\Z")

    def test_that_is_not_understood_is_status_2(self) -> None:
        for words in (
            ["x"],
            ["--top"],
            ["--idle", "x"],
            ["--idle", "-1"],
            ["--idle", "nan"],
            ["--help", "x"],
        ):
            with self.subTest(words=words):
                called = self.call(*words)
                self.assertEqual((called.returncode, called.stdout), (2, ""))
                self.assertTrue(called.stderr.startswith("usage: "))

    def test_of_no_folder_is_status_2(self) -> None:
        called = self.call("--top", "/no/such/folder")
        self.assertEqual((called.returncode, called.stdout), (2, ""))
        self.assertIn("no folder", called.stderr)
