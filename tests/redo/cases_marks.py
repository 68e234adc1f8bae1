"""Lines of scripts that look like marks of a log, by which redo shows other logs."""
from trees import Tree, ended

MARKS = [
    "\x1eredo other",
    "\x1etarget x -",
    "\x1eend 0 -",
    "\x1e",
    "\x1e0123456789abcdef redo other",
]


def case_mark_byte_is_shown(tree: Tree) -> None:
    """A line that begins with the mark byte is shown as it is, and brings no other log in."""
    tree.files(other__do="echo secret >&2\n", marks="\n".join([*MARKS, "last"]) + "\n")
    tree.write("x.do", "cat marks >&2\nredo-ifchange y\ncat marks >&2\n")
    tree.write("y.do", "cat marks >&2\n")
    tree.redo("other")
    wanted = [*MARKS, "last"]
    everything = ["redo  x", *wanted, "redo    y", *wanted, *wanted]
    tree.check.same("live", split(tree.redo("x").err), everything)
    tree.check.same("log", split(tree.run("redo-log", "x").out), everything)
    alone = ["redo  x", *wanted, *wanted]
    tree.check.same("log -n", split(tree.run("redo-log", "-n", "x").out), alone)


def case_mark_of_a_former_build(tree: Tree) -> None:
    """A script that has the log of its former build can't use the marks of that."""
    tree.files(y__do="echo y >&2\n", other__do="echo secret >&2\n")
    tree.write("x.do", "redo-ifchange y\n[ ! -e former ] || sed s/y$/other/ former >&2\n")
    tree.redo("other")
    tree.redo("x")
    logs = [log for log in tree.path(".redo/logs").iterdir() if b" x " in log.read_bytes()]
    tree.check.same("logs of x", len(logs), 1)
    tree.path("former").write_bytes(logs[0].read_bytes())
    tree.check.true("no secret", "secret" not in tree.redo("x").err)
    tree.check.true("no secret in the log", "secret" not in tree.run("redo-log", "x").out)


def case_log_of_a_run_that_was_killed(tree: Tree) -> None:
    """A log that has no end is shown, and what looks like its end is text."""
    tree.files(x__do="printf '\\036end 0 -\\n' >&2\n: >begun\nsleep 20\n")
    run = tree.start("redo", "x")
    tree.until("x begins", tree.path("begun").exists)
    run.kill()
    ended(run)
    tree.check.same("log", tree.run("redo-log", "x").out, "redo  x\n\x1eend 0 -\n")


def case_log_that_a_script_empties(tree: Tree) -> None:
    """After `>/dev/stderr`, which empties its log, a script's log has no marks as text."""
    tree.files(x__do="echo before >&2\necho text >/dev/stderr\nredo-ifchange y\n", y__do=":\n")
    tree.redo("x")
    tree.check.same("log", tree.run("redo-log", "x").out, "redo  x\ntext\nredo    y\n")


def split(text: str) -> list[str]:
    """Returns the lines of a text. The mark byte parts no lines."""
    return text.removesuffix("\n").split("\n")
