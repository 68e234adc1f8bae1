"""The process groups that clients tell of, and that the server kills."""
import contextlib
import os
import signal
import subprocess
import time
from pathlib import Path

import beside  # noqa: F401
from redodb import requests
from served import PATIENCE, ServedTree, eventually


class Groups(ServedTree):
    def setUp(self) -> None:
        super().setUp()
        self.serve(idle=60)
        self.sleeper = subprocess.Popen(["sh", "-c", "sleep 100 & wait"], start_new_session=True)
        self.addCleanup(self.end_sleeper)

    def end_sleeper(self) -> None:
        if self.sleeper.poll() is None:
            os.killpg(self.sleeper.pid, signal.SIGKILL)
        self.sleeper.wait(PATIENCE)

    def test_are_killed_before_the_session_ends(self) -> None:
        one, two = self.client(), self.client()
        self.assertEqual(
            one.talk("1 lock a", f"2 group {self.sleeper.pid}"), ["1 granted 1", "2 ok"]
        )
        two.send("1 wait a -")
        one.close()
        self.assertEqual(two.line(), "1 granted 2")
        self.assertEqual(self.sleeper.wait(PATIENCE), -9)

    def test_that_were_taken_back_live_on(self) -> None:
        one, two = self.client(), self.client()
        self.assertEqual(
            one.talk(
                "1 lock a",
                f"2 group {self.sleeper.pid}",
                f"3 ungroup {self.sleeper.pid}",
                f"4 ungroup {self.sleeper.pid}",
            ),
            ["1 granted 1", "2 ok", "3 ok", "4 fault bad-group"],
        )
        two.send("1 wait a -")
        one.close()
        self.assertEqual(two.line(), "1 granted 2")
        self.assertIsNone(self.sleeper.poll())

    def headless(self, environment: dict[str, str]) -> int:
        """Return a group whose leader is gone."""
        words = ["sh", "-c", "sleep 100 & exit"]
        with subprocess.Popen(words, start_new_session=True, env=environment) as shell:
            pass
        self.addCleanup(self.end_group, shell.pid)
        return shell.pid

    def end_group(self, group: int) -> None:
        with contextlib.suppress(ProcessLookupError):
            os.killpg(group, signal.SIGKILL)

    def lives(self, group: int) -> bool:
        """Say whether a process of a group runs, a moment from now: it takes a while to die."""
        time.sleep(0.2)
        states = set()
        for path in Path("/proc").glob("[0-9]*/stat"):
            with contextlib.suppress(OSError):
                fields = path.read_text().rpartition(") ")[2].split()
                if int(fields[2]) == group:
                    states.add(fields[0])
        return bool(states - {"Z", "X"})

    def told(self, *words: str) -> None:
        """Have a client tell of a group, and end when it is answered."""
        one, two = self.client(), self.client()
        self.assertEqual(
            one.talk("1 lock a", "2 group " + " ".join(words)), ["1 granted 1", "2 ok"]
        )
        two.send("1 wait a -")
        one.close()
        self.assertEqual(two.line(), "1 granted 2")

    def test_are_told_with_what_tells_their_leader_from_others(self) -> None:
        self.told(*requests.group(self.sleeper.pid).lines[0].decode().split(" ")[1:])
        self.assertEqual(self.sleeper.wait(PATIENCE), -9)

    def test_whose_number_has_another_process_live_on(self) -> None:
        _, number, began, namespace, run = requests.group(self.sleeper.pid).lines[0].split(b" ")
        self.told(number.decode(), f"{int(began) - 1}", namespace.decode(), run.decode())
        self.assertTrue(self.lives(self.sleeper.pid))

    def test_of_another_namespace_live_on(self) -> None:
        _, number, began, namespace, run = requests.group(self.sleeper.pid).lines[0].split(b" ")
        self.told(number.decode(), began.decode(), f"{int(namespace) + 1}", run.decode())
        self.assertTrue(self.lives(self.sleeper.pid))

    def test_of_a_run_end_by_their_environment(self) -> None:
        environment = {**os.environ, "REDO_SOCKET": "/a run"}
        with subprocess.Popen(["sleep", "100"], start_new_session=True, env=environment) as sleeper:
            self.told(*requests.group(sleeper.pid, b"/a run").lines[0].decode().split(" ")[1:])
            self.assertEqual(sleeper.wait(PATIENCE), -9)

    def test_of_another_run_live_on(self) -> None:
        self.told(*requests.group(self.sleeper.pid, b"/a run").lines[0].decode().split(" ")[1:])
        self.assertTrue(self.lives(self.sleeper.pid))

    def test_whose_leader_is_gone_end_if_they_are_of_the_run(self) -> None:
        group = self.headless({**os.environ, "REDO_SOCKET": "/a run"})
        self.told(*requests.group(group, b"/a run").lines[0].decode().split(" ")[1:])
        self.assertTrue(eventually(lambda: not self.lives(group)))

    def test_whose_leader_is_gone_live_on_if_they_are_of_another_run(self) -> None:
        group = self.headless({**os.environ, "REDO_SOCKET": "/another run"})
        self.told(*requests.group(group, b"/a run").lines[0].decode().split(" ")[1:])
        self.assertTrue(self.lives(group))

    def test_that_would_be_the_servers_own_or_all_are_refused(self) -> None:
        server = os.getpgid(self.servers[0].pid)
        client = self.client()
        for group in ("0", "1", str(server), "-5", "x", "", "99999999999999999999", "5 6"):
            self.assertEqual(client.talk(f"1 group {group}"), ["1 fault bad-group"])
