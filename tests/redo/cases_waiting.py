"""What is said when a program waits for long, and that it goes on waiting."""
import os
import signal

from trees import Tree, ended

QUICKLY = {"REDO_PATIENCE": "0.4"}
HELD = ": >begun.$1\nuntil [ -e go ] || ! [ -e begun.$1 ]; do sleep 0.1; done\n"


def server_of(tree: Tree) -> int:
    """Returns the process that is the server."""
    return int(tree.read(".redo/server/lock"))


def about_server(tree: Tree) -> str:
    """The line about a server that doesn't answer."""
    return f"redo: waiting for the server of {tree.folder.resolve()} (process {server_of(tree)})"


def case_stopped_server(tree: Tree) -> None:
    """A program whose server is stopped says so once, and goes on when the server does."""
    tree.files(x__do="redo-ifchange y\ncat y\n", y="text\n")
    tree.redo("x")
    for words in ("redo-ood", "redo-why x", "redo-ifchange x", "redo x", "redo-targets"):
        tree.path("err").unlink(missing_ok=True)
        tree.run("redo-ood")
        line = about_server(tree)
        os.kill(server_of(tree), signal.SIGSTOP)
        try:
            run = tree.start("sh", "-c", f"exec {words} 2>err", environment=QUICKLY)
            tree.until(f"{words}: a line", lambda: line in tree.read("err"))
            tree.check.same(f"{words}: waits", run.poll(), None)
        finally:
            os.kill(server_of(tree), signal.SIGCONT)
        tree.check.same(f"{words}: status", ended(run).status, 0)
        said = [one for one in tree.read("err").splitlines() if "waiting" in one]
        tree.check.same(f"{words}: lines", said, [line])


def case_stopped_server_of_a_run(tree: Tree) -> None:
    """A run whose server is stopped on the way says so once, and goes on when the server does."""
    tree.files(x__do=HELD + "redo-ifchange y\ncat y\n", y__do="echo text\n")
    run = tree.start("sh", "-c", "exec redo x 2>err", environment=QUICKLY)
    tree.until("x begins", tree.path("begun.x").exists)
    line = about_server(tree)
    os.kill(server_of(tree), signal.SIGSTOP)
    try:
        tree.write("go", "")
        tree.until("a line", lambda: line in tree.read("err"))
    finally:
        os.kill(server_of(tree), signal.SIGCONT)
    tree.check.same("status", ended(run).status, 0)
    tree.check.same("x", tree.read("x"), "text\n")
    tree.check.same("lines", tree.read("err"), f"redo  x\n{line}\nredo    y\n")


def case_lock_that_another_redo_holds(tree: Tree) -> None:
    """Who waits for a target that another redo builds says so once, and then has it."""
    tree.files(x__do=HELD + "echo x >>ran\n", z__do="redo-ifchange x\n")
    first = tree.start("redo", "x")
    tree.until("x begins", tree.path("begun.x").exists)
    second = tree.start("sh", "-c", "exec redo-ifchange z 2>err", environment=QUICKLY)
    line = "redo: waiting for x, which another redo builds\n"
    tree.until("a line", lambda: line in tree.read("err"))
    tree.write("go", "")
    tree.check.same("statuses", (ended(first).status, ended(second).status), (0, 0))
    tree.check.same("lines", tree.read("err"), f"redo  z\n{line}")
    tree.check.same("runs", tree.count("ran"), 1)


def case_lock_of_the_run_itself(tree: Tree) -> None:
    """A run that waits for what it builds itself says nothing, for as long as another one waits
    that says so.
    """
    tree.files(a__do="redo-ifchange x\n", b__do="redo-ifchange x\n", x__do=HELD)
    run = tree.start("redo", "-j3", "a", "b", environment=QUICKLY)
    tree.until("x begins", tree.path("begun.x").exists)
    other = tree.start("sh", "-c", "exec redo-ifchange x 2>err", environment=QUICKLY)
    tree.until("a line", lambda: "waiting for x" in tree.read("err"))
    tree.write("go", "")
    tree.check.same("other", ended(other).status, 0)
    done = ended(run)
    about_locks = [line for line in done.lines if "which another" in line]
    tree.check.same("status, and lines about locks", (done.status, about_locks), (0, []))
    tree.check.same("lines", sorted(done.built), ["a", "b", "x"])


def case_patience_is_a_number(tree: Tree) -> None:
    """What isn't a number of seconds in REDO_PATIENCE does no harm."""
    tree.files(x__do="echo x\n")
    for value in ("", "x", "nan", "inf", "-1", "1e99"):
        run = tree.redo("x", environment={"REDO_PATIENCE": value})
        tree.check.same(repr(value), run.built, ["x"])
