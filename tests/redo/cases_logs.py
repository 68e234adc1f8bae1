"""A log of the database that is none: an error that names it, at once."""
import os
import resource
import signal
import subprocess
from typing import Callable

from trees import Ended, Tree, sleepers

LOG = ".redo/log"
HEADER = "redodb-log 1\n"
MOST_MEMORY = 1 << 30
SECONDS = 20.0


def case_log_that_is_a_fifo(tree: Tree) -> None:
    """A FIFO in the log's place isn't waited for."""
    is_refused(tree, os.mkfifo, " is no regular file")


def case_log_that_is_a_link(tree: Tree) -> None:
    """A link in the log's place isn't followed, to a device or to a file."""
    is_refused(tree, lambda log: os.symlink("/dev/zero", log), " is a link")
    tree.write("mine", HEADER)
    is_refused(tree, lambda log: os.symlink("../mine", log), " is a link")
    tree.check.same("what it leads to", tree.read("mine"), HEADER)


def case_log_with_another_name(tree: Tree) -> None:
    """A file with a second name isn't written to."""
    tree.write("mine", HEADER)
    is_refused(tree, lambda log: os.link(tree.path("mine"), log), " has 2 names")
    tree.check.same("by its other name", tree.read("mine"), HEADER)


def case_log_that_is_a_large_foreign_file(tree: Tree) -> None:
    """A large file of another program isn't read into memory."""

    def make(log: str) -> None:
        with open(log, "wb") as file:
            file.truncate(3 << 30)

    is_refused(tree, make, ": line 1 differs")


def is_refused(tree: Tree, make: Callable[[str], None], cause: str) -> None:
    """Checks that nothing is built over this log, and that the log and the cause are named."""
    tree.files(a__do="echo a\n")
    log = tree.path(LOG)
    log.parent.mkdir(mode=0o700, exist_ok=True)
    make(str(log))
    try:
        run = within_seconds(tree, "redo", "a")
    finally:
        log.unlink()
    tree.check.same("status", run.status, 1)
    tree.check.has("message", run.err, f"{log.resolve()}{cause}")
    tree.check.same("a", tree.read("a"), "(none)")


def within_seconds(tree: Tree, *words: str) -> Ended:
    """Runs a program with little memory, and ends it, and its server, if it takes long."""

    def limit() -> None:
        resource.setrlimit(resource.RLIMIT_AS, (MOST_MEMORY, MOST_MEMORY))

    process = tree.start(*words, preexec_fn=limit)
    try:
        out, err = process.communicate(timeout=SECONDS)
    except subprocess.TimeoutExpired:
        process.kill()
        process.wait()
        for server in sleepers(tree, True):
            os.kill(server, signal.SIGKILL)
        return Ended(-1, "", "it takes long")
    return Ended(process.returncode, os.fsdecode(out), os.fsdecode(err))


def case_log_of_the_unchanged(tree: Tree) -> None:
    """redo-log -u has a line for each target that was needed and not built, once."""
    tree.files(
        all__do="redo-ifchange a d/b\necho done >&2\n",
        a__do="redo-ifchange c source\necho a >&2\n",
        c__do="echo c\n",
        source="1\n",
    )
    tree.write("d/b.do", "redo-ifchange ../c\n")
    tree.redo()
    first = ["redo  all", "redo    a", "redo      c", "a", "redo    d/b", "done"]
    tree.check.same("first", tree.run("redo-log", "-u", "all").out.splitlines(), first)
    tree.write("source", "2\n")
    tree.redo()
    unchanged = ["redo  all", "redo    a", "a", "redo      c (unchanged)", "done"]
    unchanged += ["redo    d/b (unchanged)"]
    for option in ("-u", "--unchanged"):
        run = tree.run("redo-log", option, "all")
        tree.check.same(f"{option}: second", (run.out.splitlines(), run.err), (unchanged, ""))
    plain = ["redo  all", "redo    a", "a", "done"]
    tree.check.same("without", tree.run("redo-log", "all").out.splitlines(), plain)
    run = tree.run("redo-log", "-u", "-n", "../d/b", folder="d")
    wanted = ["redo  b", "redo    ../c (unchanged)"]
    tree.check.same("in a folder, alone", run.out.splitlines(), wanted)


def case_no_details(tree: Tree) -> None:
    """With --no-details, redo and redo-log show no line of a script; the log has them."""
    tree.files(
        all__do="echo of all >&2\nredo-ifchange bad\n",
        bad__do="echo of bad >&2\nexit 3\n",
    )
    run = tree.run("redo", "--no-details")
    wanted = ["redo  all", "redo    bad", "redo: bad: status 3", "redo: all: status 1"]
    tree.check.same("redo", (run.status, run.lines), (1, wanted))
    run = tree.run("redo-log", "--no-details", "all")
    tree.check.same("redo-log", (run.status, run.out.splitlines()), (0, wanted))
    for words in (["all"], ["--no-details", "--details", "all"]):
        out = tree.run("redo-log", *words).out.splitlines()
        tree.check.true(f"{words}", {"of all", "of bad"} <= set(out))
    run = tree.run("redo", "--no-details", "--details", "bad")
    tree.check.true("with details", "of bad" in run.lines)
