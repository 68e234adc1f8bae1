"""The server that a client starts, and what the package exports."""
import os
import subprocess
import sys
import unittest
import unittest.mock
from pathlib import Path

import beside  # noqa: F401
import redodb
from redodb import Client, reach
from redodb.errors import ServerError, UntrustedError
from redodb.places import package_folder
from redodb.replies import Busy, Granted, State
from served import PATIENCE, RUNS, ServedTree, eventually


class Start(ServedTree):
    def test_is_one_server_for_many_programs(self) -> None:
        program = (
            "import sys; from redodb import Client; client = Client(sys.argv[1], idle=1); "
            "print(client.session, flush=True); sys.stdin.read()"
        )
        programs = [
            subprocess.Popen(
                [sys.executable, "-c", program, self.top],
                cwd=package_folder(),
                stdin=subprocess.PIPE,
                stdout=subprocess.PIPE,
            )
            for _ in range(8)
        ]
        sessions = []
        for one in programs:
            assert one.stdout is not None
            sessions.append(int(one.stdout.readline()))
        for one in programs:
            one.communicate(timeout=PATIENCE)
        self.assertEqual(sorted(sessions), list(range(1, 9)))
        self.assertEqual(Path(os.fsdecode(self.places.errors)).read_text(), "")

    def test_that_fails_says_why(self) -> None:
        self.places.make()
        Path(os.fsdecode(self.places.log)).write_text("no log\n")
        with self.assertRaisesRegex(ServerError, "redodb-live: .*log: line 1 differs"):
            Client(self.top)
        errors = Path(os.fsdecode(self.places.errors))
        self.assertTrue(eventually(lambda: "line 1 differs" in errors.read_text()))

    def test_in_a_folder_that_is_not_there_is_an_error(self) -> None:
        with self.assertRaises(FileNotFoundError):
            Client(os.path.join(self.top, "none"))
        self.assertFalse(os.path.exists(os.path.join(self.top, "none")))

    def test_takes_the_program_by_its_path_from_here(self) -> None:
        self.addCleanup(os.chdir, os.getcwd())
        os.chdir(os.path.dirname(self.program))
        with unittest.mock.patch.dict(
            os.environ, {"REDODB_LIVE": "./" + os.path.basename(self.program)}
        ):
            with Client(self.top, idle=0.05) as one:
                self.assertEqual(one.lock("a"), Granted(1))

    def test_in_a_folder_that_is_a_file_says_why(self) -> None:
        Path(self.top, ".redo").write_text("")
        with self.assertRaisesRegex(UntrustedError, r"/\.redo is no folder"):
            Client(self.top)

    def test_works_where_the_path_is_longer_than_that_of_a_socket_may_be(self) -> None:
        deep = os.path.join(self.top, *["a folder with a long name"] * 8)
        os.makedirs(deep)
        self.use_top(deep)
        with Client(deep, idle=0.05) as one, Client(deep) as two:
            self.assertEqual((one.lock("a"), two.lock("a")), (Granted(1), Busy(1)))

    def test_is_found_upwards(self) -> None:
        inner = os.path.join(self.top, "x", "y")
        os.makedirs(inner)
        before = os.getcwd()
        self.addCleanup(os.chdir, before)
        os.chdir(inner)
        with self.assertRaises(ServerError):
            Client()
        os.mkdir(os.path.join(self.top, ".redo"))
        with Client(idle=0.05) as one:
            self.assertEqual(one.top, os.fsencode(self.top))

    def test_takes_the_next_server_where_one_ends(self) -> None:
        for _ in range(10):
            with Client(self.top, idle=0) as one:
                self.assertEqual(one.state("a").state, State.IDLE)

    def test_is_not_for_ever_where_all_sessions_are_taken(self) -> None:
        program = Path(self.top, "server")
        program.write_text(f"#!/bin/sh\nexec {self.server_program} --runs {RUNS} \"$@\"\n")
        program.chmod(0o755)
        chosen = unittest.mock.patch.dict(os.environ, {"REDO_SERVER": str(program)})
        with chosen:
            clients = [Client(self.top, idle=0.05) for _ in range(RUNS)]
        with self.assertRaises(TimeoutError):
            Client(self.top, timeout=0.2)
        for one in clients:
            one.close()
        Client(self.top, timeout=PATIENCE).close()


class Imports(unittest.TestCase):
    def test_of_the_package_are_what_it_exports(self) -> None:
        self.assertIs(redodb.Client, Client)
        self.assertIs(redodb.errors.ServerError, ServerError)
        self.assertEqual([name for name in redodb.__all__ if not hasattr(redodb, name)], [])
        with self.assertRaises(AttributeError):
            redodb.nothing  # noqa: B018
        self.assertEqual(reach.START_SECONDS, 10)
