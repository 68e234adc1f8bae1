"""What many clients do at once, and what is left of it when they or the server are killed."""
import os
import random
import signal
import subprocess
import sys
import threading

import beside  # noqa: F401
from redodb import Client
from redodb.errors import ServerError
from redodb.places import package_folder
from redodb.replies import Granted
from served import PATIENCE, ServedTree, eventually

BUILDER = """
import fcntl, itertools, random, sys, time
from redodb import Client
from redodb.replies import Granted
top, seed, folder = sys.argv[1:]
chance = random.Random(seed)
files = [open(f"{folder}/t{number}", "w") for number in range(5)]
with Client(top) as client:
    for turn in itertools.count():
        number = chance.randrange(5)
        name = f"t{number}"
        if isinstance(client.wait(name), Granted):
            fcntl.lockf(files[number], fcntl.LOCK_EX | fcntl.LOCK_NB)
            client.start(name)
            time.sleep(chance.random() / 500)
            client.done(name, f"{seed}-{turn}")
            fcntl.lockf(files[number], fcntl.LOCK_UN)
            client.unlock(name)
"""
"""A builder that fails if another one builds its target. The kernel releases the file locks of a
killed process before it closes its connection."""


class Together(ServedTree):
    """Builders that are killed at random: never have two of them a lock at once."""

    def test_builders_exclude_each_other(self) -> None:
        self.serve(idle=60)
        watcher = self.client()
        folder = os.path.join(self.top, "held")
        os.mkdir(folder)
        chance = random.Random(37)
        builders = {seed: self.builder(seed, folder) for seed in range(6)}
        for seed in range(6, 26):
            enough = len(self.log()) + 10
            self.assertTrue(eventually(lambda: len(self.log()) >= enough))
            victim = chance.choice(list(builders))
            self.kill(builders.pop(victim))
            builders[seed] = self.builder(seed, folder)
        for builder in builders.values():
            self.kill(builder)
        for number in range(5):
            watcher.send(f"{number} wait t{number} -")
        self.assertEqual(sorted(line.split()[1] for line in watcher.lines(5)), ["granted"] * 5)
        self.check_history(self.log())
        self.assertGreater(len(self.log()), 100)
        self.end_servers()
        self.servers.clear()
        self.serve(idle=60)
        self.assertRegex(self.client().talk("1 state t0")[0], r"\A1 (built|failed) lock - file ")

    def check_history(self, lines: list[str]) -> None:
        """Fail if a name was granted while another session had it."""
        holders: dict[str, str] = {}
        for line in lines:
            session, word, name = line.split(" => ")[0].split(" ")[:3]
            if word == "lock":
                self.assertNotIn(name, holders, line)
                holders[name] = session
            elif word == "unlock":
                self.assertEqual(holders.pop(name), session, line)
            elif word in ("start", "done", "failed"):
                self.assertEqual(holders[name], session, line)

    def builder(self, seed: int, folder: str) -> subprocess.Popen[bytes]:
        return subprocess.Popen(
            [sys.executable, "-c", BUILDER, self.top, str(seed), folder],
            cwd=package_folder(),
            stderr=subprocess.DEVNULL,
        )

    def kill(self, builder: subprocess.Popen[bytes]) -> None:
        """Kill a builder, and fail if it had ended by itself."""
        builder.send_signal(signal.SIGKILL)
        self.assertEqual(builder.wait(PATIENCE), -signal.SIGKILL)


class Crashes(ServedTree):
    def test_of_the_server_lose_nothing_that_was_answered(self) -> None:
        chance = random.Random(37)
        told: dict[str, str] = {}
        number = 0
        for turn in range(8):
            server = self.serve(idle=60)
            killer = threading.Timer(chance.random() * 0.1 + 0.02, server.kill)
            try:
                with Client(self.top, timeout=PATIENCE) as client:
                    for name, stamp in told.items():
                        self.assertEqual(client.state(name).stamp, stamp)
                    self.assertIsInstance(client.wait("lock"), Granted)
                    killer.start()
                    while number < 1_000_000:
                        number += 1
                        client.file(f"name{number % 50}", f"{turn}-{number}")
                        told[f"name{number % 50}"] = f"{turn}-{number}"
            except ServerError:
                told.pop(f"name{number % 50}", None)
            killer.join()
            server.wait(PATIENCE)
            if os.path.exists(self.places.socket):
                os.unlink(self.places.socket)
        self.assertGreater(number, 50)
