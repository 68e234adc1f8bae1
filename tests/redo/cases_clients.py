"""Clients of the database beside runs: whoever builds by other means takes locks and reports files,
with redodb.Client. Runs wait for the locks, and take what is reported as they take their own looks.
"""
import os
import signal
import subprocess
import sys
from typing import IO, cast

from cases_races import stamp
from trees import PROGRAM_FOLDER, SERVER, TOP, Tree, end_server, ended

QUICKLY = {"REDO_PATIENCE": "0.4"}
WAITS = "redo: waiting for x, which another "
ASKED = """
import sys
from redodb import Client
client = Client(sys.argv[1])
for line in sys.stdin.buffer:
    print(client.ask(line[:-1]).decode(), flush=True)
"""


class Asker:
    """A process with a redodb.Client, which asks what it is told to. It starts the server of the
    tree if there is none: that of the programs."""

    def __init__(self, tree: Tree) -> None:
        environment = tree.environment | {"PYTHONPATH": str(TOP / "python")}
        server = PROGRAM_FOLDER / "redo-server"
        if server.exists():
            environment[SERVER] = str(server)
        self.process = subprocess.Popen(
            [sys.executable, "-c", ASKED, str(tree.folder.resolve())],
            env=environment,
            stdin=subprocess.PIPE,
            stdout=subprocess.PIPE,
        )

    def ask(self, request: str) -> str:
        """Returns the answer to a request."""
        asked = cast("IO[bytes]", self.process.stdin)
        asked.write(request.encode() + b"\n")
        asked.flush()
        return cast("IO[bytes]", self.process.stdout).readline().decode().rstrip("\n")

    def end(self) -> None:
        """Ends the session."""
        self.process.communicate()


def case_lock_that_a_client_holds(tree: Tree) -> None:
    """A run waits for a target whose lock a client holds, says so once, and then has it."""
    tree.files(x__do="echo x >>ran\necho x\n", z__do="redo-ifchange x\ncat x\n")
    client = Asker(tree)
    tree.check.same("lock", client.ask("lock x"), "granted 1")
    run = tree.start("sh", "-c", "exec redo-ifchange z 2>err", environment=QUICKLY)
    tree.until("a line, or the end", lambda: WAITS in tree.read("err") or run.poll() is not None)
    tree.check.same("waits", (run.poll(), tree.count("ran")), (None, 0))
    tree.check.same("unlock", client.ask("unlock x"), "ok")
    tree.check.same("status", ended(run).status, 0)
    tree.check.same("lines", tree.read("err").count("waiting"), 1)
    tree.check.same("z, and runs", (tree.read("z"), tree.count("ran")), ("x\n", 1))
    client.end()


def case_lock_of_a_client_that_dies(tree: Tree) -> None:
    """A client is killed while it builds a target: the run that waits builds that."""
    tree.files(x__do="echo x\n")
    client = Asker(tree)
    answers = [client.ask(request) for request in ("lock x", "start x")]
    tree.check.same("begun", answers, ["granted 1", "ok"])
    run = tree.start("sh", "-c", "exec redo-ifchange x 2>err", environment=QUICKLY)
    tree.until("a line, or the end", lambda: WAITS in tree.read("err") or run.poll() is not None)
    client.process.kill()
    tree.check.same("status", ended(run).status, 0)
    tree.check.same("x", tree.read("x"), "x\n")
    client.end()


def case_build_of_a_client_that_is_broken_off(tree: Tree) -> None:
    """What the build of a client that dies has left is no edit, also if an earlier build failed."""
    tree.files(x__do="exit 1\n")
    tree.check.same("a failure", tree.run("redo", "x").status, 1)
    client = Asker(tree)
    answers = [client.ask(request) for request in ("lock x", "start x")]
    tree.check.same("begun", (answers[0][:8], answers[1]), ("granted ", "ok"))
    tree.write("x", "half of it\n")
    client.process.kill()
    client.end()
    tree.write("x.do", "echo all of it\n")
    run = tree.ifchange("x")
    tree.check.same("x", (tree.read("x"), run.err), ("all of it\n", "redo  x\n"))


def case_run_that_ends_while_it_waits_for_a_client(tree: Tree) -> None:
    """A run that waits for a client's lock is ended by SIGINT; the lock stays the client's."""
    tree.files(x__do="echo x\n", z__do="redo-ifchange x\ncat x\n")
    client = Asker(tree)
    client.ask("lock x")
    run = tree.start("sh", "-c", "exec redo z 2>err", environment=QUICKLY)
    tree.until("a line, or the end", lambda: WAITS in tree.read("err") or run.poll() is not None)
    os.kill(run.pid, signal.SIGINT)
    tree.check.same("status", ended(run).status, -signal.SIGINT)
    tree.check.same("unlock", client.ask("unlock x"), "ok")
    tree.check.same("lock again", client.ask("lock x"), "granted 2")
    client.ask("unlock x")
    tree.redo("z")
    tree.check.same("z", tree.read("z"), "x\n")
    client.end()


def case_two_runs_that_wait_for_a_client(tree: Tree) -> None:
    """Two runs wait for a client's lock, and one of them is killed: the target is built once."""
    tree.files(x__do="echo x >>ran\n")
    client = Asker(tree)
    client.ask("lock x")
    runs = []
    for name in ("first", "second", "third"):
        words = f"exec redo-ifchange x 2>{name}"
        run = tree.start("sh", "-c", words, environment=QUICKLY)
        tree.until("a line", lambda: WAITS in tree.read(name) or run.poll() is not None)
        runs.append(run)
    runs[0].kill()
    ended(runs.pop(0))
    client.ask("unlock x")
    tree.check.same("statuses", [ended(run).status for run in runs], [0, 0])
    tree.check.same("runs", tree.count("ran"), 1)
    client.end()


def case_others_go_on_while_a_client_has_a_lock(tree: Tree) -> None:
    """While a script waits for a client's lock, its run builds what else is wanted."""
    tree.files(
        x__do="echo x\n",
        y__do="redo-ifchange x\ncat x\n",
        z__do="echo z\n",
        bad__do="exit 1\n",
    )
    client = Asker(tree)
    client.ask("lock x")
    run = tree.start("redo", "-k", "y", "bad", "z")
    tree.until("z, or the end", lambda: tree.path("z").exists() or run.poll() is not None)
    tree.check.same("waits", (run.poll(), tree.read("z"), tree.read("y")), (None, "z\n", "(none)"))
    client.ask("unlock x")
    tree.check.same("status", ended(run).status, 1)
    tree.check.same("y", tree.read("y"), "x\n")
    client.end()


def case_built_by_a_client_while_a_run_waits(tree: Tree) -> None:
    """A client builds a target for which a run waits: the run takes it as it is."""
    tree.files(x__do="echo x >>ran\n", z__do="redo-ifchange x\ncat x\n")
    client = Asker(tree)
    answers = [client.ask(request) for request in ("lock x", "start x")]
    tree.check.same("begun", answers, ["granted 1", "ok"])
    run = tree.start("sh", "-c", "exec redo-ifchange z 2>err", environment=QUICKLY)
    tree.until("a line, or the end", lambda: WAITS in tree.read("err") or run.poll() is not None)
    tree.write("x", "by the client\n")
    answers = [client.ask(f"done x {stamp(tree, 'x')}"), client.ask("unlock x")]
    tree.check.same("done", answers, ["ok", "ok"])
    tree.check.same("status", ended(run).status, 0)
    tree.check.same("z", (tree.read("z"), tree.count("ran")), ("by the client\n", 0))
    client.end()


def case_change_that_a_client_reports(tree: Tree) -> None:
    """A file is another for a while, as a client reports, when a script was answered for it."""
    held = ": >begun\nuntil [ -e go ]; do sleep 0.1; done\n"
    tree.files(x__do=f"redo-ifchange y\n{held}cat y\n", y="old\n")
    client = Asker(tree)
    run = tree.start("redo", "x")
    tree.until("x begins", tree.path("begun").exists)
    reports = []
    for text in ("new\n", "old\n"):
        tree.write("y", text)
        reports.append(client.ask(f"file y {stamp(tree, 'y')}"))
    tree.check.same("reports", reports, ["ok", "ok"])
    tree.write("go", "")
    tree.check.same("status", ended(run).status, 0)
    tree.check.same("why", tree.run("redo-why", "x").out, "x changed while it was built\n")
    client.end()


def case_edit_that_a_client_reports(tree: Tree) -> None:
    """What is built from an edited target follows each edit, also one that a client reports."""
    tree.files(x__do="echo built\n", z__do="redo-ifchange x\ncat x\n")
    tree.redo("z")
    made = tree.read("x")
    tree.write("x", "first\n")
    tree.ifchange("z")
    client = Asker(tree)
    for text in ("second\n", "third\n", made):
        tree.write("x", text)
        client.ask(f"file x {stamp(tree, 'x')}")
        if text != "third\n":
            tree.check.has(f"{text!r}: out of date", tree.run("redo-ood").out, "z\n")
        tree.ifchange("z")
        tree.check.same(f"{text!r}: z", tree.read("z"), text)
    client.end()


def case_edit_that_a_client_reported_to_another_server(tree: Tree) -> None:
    """An edit that a client reports is followed by the runs of the next server."""
    tree.files(x__do="echo built\n", z__do="redo-ifchange x\ncat x\n")
    tree.redo("z")
    tree.write("x", "first\n")
    tree.ifchange("z")
    client = Asker(tree)
    tree.write("x", "second\n")
    client.ask(f"file x {stamp(tree, 'x')}")
    client.end()
    end_server(tree)
    tree.ifchange("z")
    tree.check.same("z", tree.read("z"), "second\n")


def case_name_without_a_path(tree: Tree) -> None:
    """What a client reports of a name that no path has makes no look of others fail."""
    tree.files(x__do="redo-ifchange y\ncat y\n", y="old\n")
    tree.redo("x")
    client = Asker(tree)
    for name in ("//edited/%", "//left/%", "//edited/", "//edited/%zz", "//edited//always", "%"):
        tree.check.same(f"{name}: file", client.ask(f"file {name} 1"), "ok")
    client.ask("look")
    tree.check.same("looks", (client.ask("look"), client.ask("look y")), ("ok 0", "ok 0"))
    tree.write("y", "new\n")
    tree.check.same("a look that finds", client.ask("look y"), "ok 1")
    tree.ifchange("x")
    tree.check.same("x", tree.read("x"), "new\n")
    for words in (["redo-ood"], ["redo-targets"], ["redo-sources"], ["redo-targets", "--edited"]):
        run = tree.run(*words)
        tree.check.same(f"{words}", (run.status, run.err), (0, ""))
    client.end()
