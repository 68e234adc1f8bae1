"""The end of a server, and what it says when redodb-live ends."""
import os
import signal
import subprocess
import time
from pathlib import Path

import beside  # noqa: F401
from served import PATIENCE, RUNS, ServedTree, eventually


class End(ServedTree):
    def test_comes_some_time_after_the_last_client(self) -> None:
        server = self.serve(idle=0.5)
        one, two = self.client(), self.client()
        one.close()
        time.sleep(0.8)
        self.assertEqual(two.talk("1 lock a"), ["1 granted 1"])
        before = time.monotonic()
        two.close()
        self.assertEqual(server.wait(PATIENCE), 0)
        self.assertGreater(time.monotonic() - before, 0.4)
        self.assertFalse(os.path.exists(self.places.socket))
        self.assertEqual(self.log(), ["2 lock a => granted 1", "2 unlock a => ok"])

    def test_ends_the_sessions_before(self) -> None:
        wanted = []
        for turn in range(1, 16):
            server = self.serve(idle=0)
            client = self.client()
            self.assertEqual(client.talk("1 lock a", "2 start a"), [f"1 granted {turn}", "2 ok"])
            client.close()
            self.assertEqual(server.wait(PATIENCE), 0)
            wanted += [
                f"1 lock a => granted {turn}",
                "1 start a => ok",
                "1 failed a => ok",
                "1 unlock a => ok",
            ]
            self.assertEqual(self.log(), wanted)

    def test_by_a_signal_to_the_group_is_an_orderly_one(self) -> None:
        server = self.serve(idle=60)
        client = self.client()
        self.assertEqual(client.talk("1 lock a"), ["1 granted 1"])
        os.killpg(server.pid, signal.SIGINT)
        self.assertEqual(client.lines(2), ["0 failed the server was told to end", ""])
        self.assertEqual(server.wait(PATIENCE), 0)

    def test_on_a_signal_is_told_to_the_clients(self) -> None:
        server = self.serve(idle=60)
        client = self.client()
        server.send_signal(signal.SIGTERM)
        self.assertEqual(client.lines(2), ["0 failed the server was told to end", ""])
        self.assertEqual(server.wait(PATIENCE), 0)

    def test_of_redodb_live_is_told_to_all_clients(self) -> None:
        server = self.serve(idle=60)
        clients = [self.client() for _ in range(RUNS)] + [self.raw(), self.raw()]
        children = Path(f"/proc/{server.pid}/task/{server.pid}/children").read_text().split()
        self.assertEqual(len(children), 1)
        os.kill(int(children[0]), signal.SIGKILL)
        for client in clients:
            self.assertEqual(client.lines(2), ["0 failed redodb-live ended with signal 9", ""])
        self.assertEqual(server.wait(PATIENCE), 1)
        self.serve(idle=60)
        self.assertEqual(self.client().talk("1 lock a"), ["1 granted 1"])

    def test_of_redodb_live_while_nobody_is_there_is_told_to_nobody(self) -> None:
        server = self.serve(idle=60)
        one = self.client()
        self.assertEqual(one.talk("1 lock a"), ["1 granted 1"])
        one.close()
        wanted = "1 unlock a => ok"
        self.assertTrue(eventually(lambda: self.log()[-1:] == [wanted]))
        children = Path(f"/proc/{server.pid}/task/{server.pid}/children").read_text().split()
        os.kill(int(children[0]), signal.SIGKILL)
        self.assertEqual(server.wait(PATIENCE), 1)
        self.serve(idle=60)
        self.assertEqual(self.client().talk("1 lock a"), ["1 granted 2"])

    def test_by_a_damaged_log_is_told_and_the_log_stays(self) -> None:
        self.places.make()
        log = Path(os.fsdecode(self.places.log))
        head = "redodb-log 1\n1 lock a => granted 1\n"
        for damage in (
            "1 unlock a => busy 1",
            "x",
            "",
            "1",
            "1 file a",
            "1 file",
            "1 start",
            "1 done a",
        ):
            log.write_text(f"{head}{damage}\n1 unlock a => ok\n")
            before = log.read_bytes()
            server = self.serve(idle=60)
            self.assertRegex(
                self.raw().line(),
                r"\A0 failed redodb-live: .*/log: line 3 differs; .*: .* --log \S+/log --salvage --whole </",
            )
            self.assertEqual(server.wait(PATIENCE), 1)
            self.assertEqual(log.read_bytes(), before)

    def test_by_a_log_that_is_a_folder_is_told(self) -> None:
        self.places.make()
        os.mkdir(self.places.log)
        server = self.serve(idle=60)
        self.assertEqual(server.wait(PATIENCE), 2)
        assert server.stderr is not None
        wanted = r"\Aredo-server: .*/log is a folder: [^\n]*\n\Z"
        self.assertRegex(server.stderr.read().decode(), wanted)

    def test_by_a_full_disk_is_told_and_what_was_answered_is_kept(self) -> None:
        full = self.script("trap '' XFSZ\nulimit -f 1\nexec PROGRAM \"$@\"\n")
        server = self.serve(idle=60, program=full)
        one, two = self.client(), self.client()
        answered = 0
        while (line := one.talk(f"1 file name{answered} 1")[0]) == "1 ok":
            answered += 1
        self.assertRegex(line, r"\A0 failed redodb-live: \S+/log: write\Z")
        self.assertEqual(two.line(), line)
        self.assertEqual(server.wait(PATIENCE), 1)
        self.serve(idle=60)
        self.assertGreater(answered, 3)
        self.assertEqual(
            self.client().talk(f"1 state name{answered - 1}"), ["1 idle lock - file 1"]
        )

    def test_by_a_program_that_can_not_be_started_is_told(self) -> None:
        server = self.serve(idle=60, program="/no/such/program")
        self.assertRegex(
            self.raw().line(), r"\A0 failed redodb-live can't be started: .*/no/such/program"
        )
        self.assertEqual(server.wait(PATIENCE), 1)

    def test_by_another_program_is_told(self) -> None:
        server = self.serve(idle=60, program=self.script("echo hello; cat\n"))
        self.assertRegex(self.raw().line(), r"\A0 failed not the greeting of redodb-live: b'hello'")
        self.assertEqual(server.wait(PATIENCE), 1)

    def test_of_the_last_servers_redodb_live_is_waited_for(self) -> None:
        self.places.make()
        with subprocess.Popen(
            [self.program, "--log", self.places.log], stdin=subprocess.PIPE, stdout=subprocess.PIPE
        ) as other:
            assert other.stdin is not None and other.stdout is not None
            self.assertTrue(other.stdout.readline().startswith(b"redodb-live "))
            self.serve(idle=60)
            client = self.raw()
            self.assertTrue(client.is_silent(0.3))
            other.stdin.close()
            self.assertEqual(client.line(), "session 1")
