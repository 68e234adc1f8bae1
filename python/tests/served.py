"""Trees with a server, for the tests. Without a redodb-live that runs, their tests are skipped."""
import fcntl
import os
import signal
import socket
import subprocess
import tempfile
import time
import unittest
from collections.abc import Callable
from pathlib import Path

import beside  # noqa: F401
from redodb.places import Places, find_program, find_server, package_folder

PATIENCE = 20.0
"""So many seconds are waited for what has to happen."""

RUNS = 63
"""So many clients have a session of a server that a test starts; other servers have more."""


def program_or_skip() -> str:
    """Return the program redodb-live. If it isn't proved, the tests are skipped."""
    program = find_program()
    if program is None:
        raise unittest.SkipTest("redodb-live is not found")
    run = subprocess.run([program], stdin=subprocess.DEVNULL, capture_output=True, check=False)
    if not run.stdout.startswith(b"redodb-live "):
        raise unittest.SkipTest(run.stderr.decode().strip())
    return os.fsdecode(program)


def server_or_skip() -> str:
    """Return the program redo-server. If it isn't built, the tests are skipped."""
    server = find_server()
    if server is None:
        raise unittest.SkipTest("redo-server is not built")
    return os.fsdecode(server)


def eventually(holds: Callable[[], bool]) -> bool:
    """Say whether something holds in time."""
    end = time.monotonic() + PATIENCE
    while not holds():
        if time.monotonic() > end:
            return False
        time.sleep(0.01)
    return True


class Raw:
    """A connection that sends what it is given, byte by byte."""

    def __init__(self, places: Places) -> None:
        self.socket = socket.socket(socket.AF_UNIX)
        self.socket.settimeout(PATIENCE)
        self.socket.connect(places.socket)
        self.reader = self.socket.makefile("rb")

    def send(self, *lines: str) -> None:
        """Send lines, each with an LF after it."""
        self.socket.sendall("".join(line + "\n" for line in lines).encode())

    def line(self) -> str:
        """Return the next line; an empty text at the end."""
        return self.reader.readline().decode().removesuffix("\n")

    def lines(self, count: int) -> list[str]:
        """Return this many lines."""
        return [self.line() for _ in range(count)]

    def talk(self, *lines: str) -> list[str]:
        """Send lines, and return as many answers."""
        self.send(*lines)
        return self.lines(len(lines))

    def is_silent(self, seconds: float = 0.15) -> bool:
        """Say whether nothing comes for a while."""
        self.socket.settimeout(seconds)
        try:
            return self.socket.recv(1, socket.MSG_PEEK) is None
        except TimeoutError:
            return True
        finally:
            self.socket.settimeout(PATIENCE)

    def close(self) -> None:
        """End the connection."""
        self.reader.close()
        self.socket.close()


class ServedTree(unittest.TestCase):
    """A tree of its own for each test, whose server has ended when the test has."""

    program = ""
    server_program = ""

    @classmethod
    def setUpClass(cls) -> None:
        cls.program = program_or_skip()
        cls.server_program = server_or_skip()

    def setUp(self) -> None:
        folder = tempfile.TemporaryDirectory(ignore_cleanup_errors=True)
        self.addCleanup(folder.cleanup)
        self.top = os.path.realpath(folder.name)
        self.use_top(self.top)
        self.servers: list[subprocess.Popen[bytes]] = []
        self.addCleanup(self.end_servers)

    def use_top(self, top: str) -> None:
        """Take another folder as the top of the tree."""
        self.top = top
        self.places = Places(os.fsencode(top))

    def serve(self, idle: float = 0.1, program: str = "") -> subprocess.Popen[bytes]:
        """Start a server with RUNS sessions, and return it when it listens."""
        command = [self.server_program, "--top", self.top, "--idle", str(idle)]
        command += ["--runs", str(RUNS)]
        server = subprocess.Popen(
            command,
            cwd=package_folder(),
            stderr=subprocess.PIPE,
            start_new_session=True,
            env={**os.environ, "REDODB_LIVE": program or self.program},
        )
        self.servers.append(server)
        self.assertTrue(
            eventually(lambda: os.path.exists(self.places.socket) or server.poll() is not None)
        )
        return server

    def raw(self) -> Raw:
        """Return a new connection, whose first line wasn't read."""
        raw = Raw(self.places)
        self.addCleanup(raw.close)
        return raw

    def client(self) -> Raw:
        """Return a new connection that has a session."""
        raw = self.raw()
        self.assertRegex(raw.line(), r"\Asession [0-9]+\Z")
        return raw

    def write(self, name: str, text: str = "") -> None:
        """Write a file of the tree."""
        path = Path(self.top, name)
        path.parent.mkdir(parents=True, exist_ok=True)
        path.write_text(text)

    def log(self) -> list[str]:
        """Return the lines of the log, without the first."""
        return Path(os.fsdecode(self.places.log)).read_text().splitlines()[1:]

    def script(self, text: str) -> str:
        """Return the path of a shell script, in which PROGRAM stands for redodb-live."""
        path = Path(self.top, "program.sh")
        path.write_text("#!/bin/sh\n" + text.replace("PROGRAM", f"'{self.program}'"))
        path.chmod(0o755)
        return str(path)

    def end_servers(self) -> None:
        """End the servers that this test started, and wait for one that was started for it."""
        for server in self.servers:
            if server.poll() is None:
                server.send_signal(signal.SIGTERM)
            server.wait(PATIENCE)
            assert server.stderr is not None
            server.stderr.close()
        if os.path.exists(self.places.lock):
            with open(self.places.lock, "rb") as lock:
                self.assertTrue(eventually(lambda: is_free(lock.fileno())), "a server is left")


def is_free(lock: int) -> bool:
    """Say whether nobody has the lock of a server."""
    try:
        fcntl.flock(lock, fcntl.LOCK_EX | fcntl.LOCK_NB)
    except BlockingIOError:
        return False
    return True
