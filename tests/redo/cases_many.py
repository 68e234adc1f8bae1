"""Very many programs at once on one tree."""
import contextlib
import os
import signal
import subprocess
import time

from trees import PROGRAM_FOLDER, Tree, end_server

MANY = 200
AT_ONCE = 63
ENOUGH = 150.0
OTHERS = f"redo: {AT_ONCE} others build in {{}}; waiting for one to end"

QUESTIONS = (
    ("redo-ood",),
    ("redo-why", "right"),
    ("redo-targets",),
    ("redo-sources",),
    ("redo-whichdo", "right"),
    ("redo-log", "right"),
)

# begins, waits until very many have begun, asks questions, and has something built
ASKING = """: >"begun.$2"
until [ -e go ] || ! [ -e "begun.$2" ]; do sleep 0.2; done
redo-why right >&2
redo-ood >&2
redo-targets >/dev/null
redo-sources >/dev/null
redo-whichdo "$1" >/dev/null
redo-log right >/dev/null
redo-ifchange src
env -u REDO_SOCKET redo-ifchange right
cat src
"""


def case_many_whose_scripts_ask(tree: Tree) -> None:
    """More `redo` than the server has sessions, each of whose scripts asks, end well.

    Those that wait for a session say so. A question needs none, and is answered meanwhile.
    """
    tree.files(default__out__do=ASKING, right__do="redo-ifchange src\ncat src\n", src="text\n")
    tree.ifchange("right")
    end_server(tree)
    tree.more["REDO_PATIENCE"] = "1"
    tree.more["REDO_SERVER"] = few_sessions(tree)
    line = OTHERS.format(tree.folder.resolve())
    runs = [
        tree.start("sh", "-c", f"exec redo {number}.out 2>err.{number}", process_group=0)
        for number in range(MANY)
    ]
    try:
        tree.until("63 have begun", lambda: len(list(tree.folder.glob("begun.*"))) == AT_ONCE)
        tree.until("the others wait", lambda: said(tree, line) == MANY - AT_ONCE)
        meanwhile = [tree.run(*words).status for words in QUESTIONS]
        tree.write("go", "")
        statuses = statuses_of(runs)
    finally:
        end_all(runs)
    tree.check.same("questions", meanwhile, [0] * len(QUESTIONS))
    tree.check.same("statuses", statuses, [0] * MANY)
    built = [tree.read(f"{number}.out") for number in range(MANY)]
    tree.check.same("targets", built, ["text\n"] * MANY)
    tree.check.same("said once", said(tree, line), MANY - AT_ONCE)


def few_sessions(tree: Tree) -> str:
    """Returns a program that is a server with fewer sessions than it has otherwise."""
    server = os.environ.get("REDO_SERVER") or f"{PROGRAM_FOLDER}/redo-server"
    tree.write("server", f'#!/bin/sh\nexec {server} --runs {AT_ONCE} "$@"\n')
    tree.path("server").chmod(0o755)
    return str(tree.path("server").resolve())


def said(tree: Tree, line: str) -> int:
    """Returns how often the programs said a line."""
    return sum(tree.read(f"err.{number}").split("\n").count(line) for number in range(MANY))


def statuses_of(runs: list["subprocess.Popen[bytes]"]) -> list[int | None]:
    """Returns the statuses of programs, None for one that hasn't ended in time."""
    end = time.monotonic() + ENOUGH
    statuses: list[int | None] = []
    for run in runs:
        try:
            run.communicate(timeout=max(0.1, end - time.monotonic()))
        except subprocess.TimeoutExpired:
            pass
        statuses.append(run.returncode)
    return statuses


def end_all(runs: list["subprocess.Popen[bytes]"]) -> None:
    """Ends programs that still run, with what they started."""
    for run in runs:
        if run.poll() is None:
            with contextlib.suppress(ProcessLookupError):
                os.killpg(run.pid, signal.SIGKILL)
            run.communicate()
