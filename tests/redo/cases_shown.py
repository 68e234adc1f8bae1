"""What is printed while a run goes on, and the logs that are kept."""
import os
import re

from trees import PROGRAM_FOLDER, Tree, on_terminal

PROGRAMS = (
    "redo",
    "redo-always",
    "redo-ifchange",
    "redo-ifcreate",
    "redo-log",
    "redo-ood",
    "redo-sources",
    "redo-stamp",
    "redo-targets",
    "redo-whichdo",
    "redo-why",
)


def talking(tree: Tree) -> None:
    """Writes a tree whose scripts talk, a on both sides of what it needs."""
    tree.files(
        all__do="echo all begins >&2\nredo-ifchange a b\necho all ends >&2\n",
        a__do="echo a begins >&2\nredo-ifchange c\necho a ends >&2\n",
        b__do="echo b >&2\n",
        c__do="sleep 0.3\necho c >&2\n",
    )


SHOWN = """redo  all
all begins
redo    a
a begins
redo      c
c
a ends
redo    b
b
all ends
"""


def case_line_of_a_target(tree: Tree) -> None:
    """There is a line for each target that is built, indented by two spaces for each level."""
    tree.files(a__do="redo-ifchange d/b\n")
    tree.write("d/b.do", "redo-ifchange ../c\n")
    tree.write("c.do", ":\n")
    tree.check.same("shown", tree.redo("a").err, "redo  a\nredo    d/b\nredo      c\n")
    tree.check.same("from a folder", tree.redo("b", folder="d").err, "redo  b\n")


def case_order_of_logs(tree: Tree) -> None:
    """Logs are shown in the order in which builds were asked for, at -j 8 as at -j 1."""
    talking(tree)
    tree.check.same("at 1", tree.redo("all").err, SHOWN)
    for name in "abc":
        tree.path(f"{name}.do").write_text(tree.read(f"{name}.do") + "# edited\n")
    tree.check.same("at 8", tree.redo("-j8", "all").err, SHOWN)


def case_redo_log(tree: Tree) -> None:
    """redo-log shows the log of a target's latest build in the same order."""
    talking(tree)
    tree.redo("-j8", "all")
    run = tree.run("redo-log", "all")
    tree.check.same("all", (run.status, run.out), (0, SHOWN))
    tree.check.same("c", tree.run("redo-log", "c").out, "redo  c\nc\n")
    tree.check.same(
        "-n", tree.run("redo-log", "-n", "all").out, "redo  all\nall begins\nall ends\n"
    )
    tree.write("c.do", "echo d >&2\n")
    tree.ifchange("all")
    tree.check.same(
        "built again",
        tree.run("redo-log", "all").out,
        """redo  all
redo    a
redo      c
d
a begins
a ends
all begins
all ends
""",
    )
    tree.write("c.do", "echo d >&2\nexit 7\n")
    tree.run("redo", "c")
    tree.check.same("failed", tree.run("redo-log", "c").out, "redo  c\nd\nredo: c: status 7\n")
    run = tree.run("redo-log", "nothing")
    tree.check.same("none", (run.status, run.out, "nothing has no log" in run.err), (1, "", True))


def case_no_log(tree: Tree) -> None:
    """With --no-log, scripts write to standard error at once, and no log is kept."""
    talking(tree)
    tree.check.same("shown", tree.redo("--no-log", "all").err, SHOWN)
    tree.check.same("log", tree.run("redo-log", "all").status, 1)


def case_part_of_a_line(tree: Tree) -> None:
    """What a script writes without a line's end is shown as a line."""
    tree.files(
        a__do="printf before >&2\nredo-ifchange b\nprintf after >&2\n", b__do="printf b >&2\n"
    )
    tree.check.same("shown", tree.redo("a").err, "redo  a\nbefore\nredo    b\nb\nafter\n")


def case_shown_at_once(tree: Tree) -> None:
    """What a script writes is shown while it goes on."""
    tree.files(a__do="echo begins >&2\nwhile ! [ -e go ]; do sleep 0.01; done\n")
    process = tree.start("redo", "a")
    assert process.stderr is not None
    lines = [process.stderr.readline(), process.stderr.readline()]
    tree.check.same("shown", lines, [b"redo  a\n", b"begins\n"])
    tree.write("go", "")
    tree.check.same("status", process.wait(60), 0)
    process.communicate()


def case_colours(tree: Tree) -> None:
    """Colours are for a terminal alone, without NO_COLOR, TERM=dumb and --no-color."""
    tree.files(a__do=":\n")
    tree.check.same("no terminal", "\x1b" in tree.redo("a").err, False)
    tree.check.true("terminal", "\x1b[32mredo  " in on_terminal(tree, "redo", "--no-status", "a"))
    for what, environment in (("NO_COLOR", {"NO_COLOR": "1"}), ("dumb", {"TERM": "dumb"})):
        shown = on_terminal(tree, "redo", "--no-status", "a", environment=environment)
        tree.check.same(what, shown, "redo  a\r\n")
    tree.check.same(
        "--no-color", on_terminal(tree, "redo", "--no-status", "--no-color", "a"), "redo  a\r\n"
    )
    empty = on_terminal(tree, "redo", "--no-status", "a", environment={"NO_COLOR": ""})
    tree.check.true("NO_COLOR is empty", "\x1b[32m" in empty)


def case_progress(tree: Tree) -> None:
    """On a terminal a line says how many targets are done, run and are left, until the end."""
    tree.files(all__do="redo-ifchange a b c\n", a__do=":\n", b__do="sleep 1\n", c__do=":\n")
    shown = on_terminal(tree, "redo", "--no-color", "all")
    told = re.findall(r"redo: (\d+) done, (\d+) running, (\d+) left", shown)
    tree.check.true(f"a is done, all and b run, c is left: {told}", ("1", "2", "1") in told)
    tree.check.same(
        "what stays", visible(shown), ["redo  all", "redo    a", "redo    b", "redo    c"]
    )
    shown = on_terminal(tree, "redo", "--no-color", "--no-status", "all")
    tree.check.same("--no-status", re.findall("done", shown), [])


def visible(shown: str) -> list[str]:
    """The lines that stay on a terminal."""
    lines = [line.rpartition("\r\x1b[K")[2] for line in shown.replace("\r\n", "\n").split("\n")]
    return [line for line in lines if line]


def called_by_users() -> list[str]:
    """The programs of the folder, but for those that no user of redo calls."""
    files = [path for path in PROGRAM_FOLDER.iterdir() if path.is_file()]
    programs = {path.name for path in files if os.access(path, os.X_OK)}
    return sorted(programs - {"redo-server", "redo-explorer", "redodb-live-plain"})


def case_help_and_version(tree: Tree) -> None:
    """--help and --version of each program are answered at once, and start nothing."""
    for program in PROGRAMS:
        run = tree.run(program, "--help")
        tree.check.same(f"{program} --help", (run.status, run.err), (0, ""))
        tree.check.true(f"{program} --help: usage", run.out.startswith(f"usage: {program}"))
        tree.check.true(f"{program} --help: columns", max(map(len, run.out.split("\n"))) <= 80)
        run = tree.run(program, "--version")
        tree.check.same(
            f"{program} --version", (run.status, run.out), (0, f"{program} (redodb) 0.3.0\n")
        )
    tree.check.same("started", list(tree.folder.iterdir()), [])
    tree.check.same("programs", called_by_users(), sorted(PROGRAMS))


def case_nobody_reads(tree: Tree) -> None:
    """If nobody reads what is printed, the targets are built all the same."""
    tree.files(a__do="echo text >&2\nredo-ifchange b\necho a\n", b__do="echo text >&2\n")
    run = tree.run("sh", "-c", "redo a 2>&1 | true; cat a")
    tree.check.same("a", run.out, "a\n")
    tree.write("b.do", "exec 2>&-\nredo-ifchange c\necho b\n")
    tree.write("c.do", "redo-ifchange d && exit 1\nprintf c\n")
    run = tree.run("sh", "-c", "redo a <&- >&- 2>&-; echo $? $(redo-targets 2>&-)")
    tree.check.same("all closed", run.out, "0 a b c\n")


def case_debug(tree: Tree) -> None:
    """redo -d says of each target what it decides, and why, as it does."""
    tree.files(
        all__do="redo-ifchange hello\n",
        hello__do="redo-ifchange hello.o plain\ncat hello.o\n",
        hello__o__do="redo-ifchange d/greeting.h\ncat d/greeting.h\n",
        plain__do="echo plain\n",
    )
    tree.write("d/greeting.h", "hello\n")
    first = tree.redo("-d")
    for line in ("all: no build made it yet", "d/greeting.h: a source", "hello.o: built"):
        tree.check.true(f"first: {line}", f"redo: {line}" in first.lines)
    tree.write("d/greeting.h", "hi\n")
    run = tree.redo("--debug")
    wanted = [
        "redo: all: hello <- hello.o <- d/greeting.h changed",
        "redo: hello.o: d/greeting.h changed",
        "redo: hello.o: built",
        "redo: hello: hello.o changed",
        "redo: plain: up to date",
        "redo: hello: built",
        "redo: all: built",
    ]
    tree.check.same("second", [line for line in run.lines if line in wanted], wanted)
    tree.check.true("in a folder", "redo: ../all: its build is asked for" in in_folder(tree))
    tree.check.true("quiet", not [line for line in tree.redo().lines if ": " in line])
    run = tree.run("redo", "-d", "nothing")
    tree.check.has("a failure", run.err, "redo: nothing: failed\n")


def in_folder(tree: Tree) -> list[str]:
    """The lines of a redo -d in another folder than the target's."""
    return tree.redo("-d", "../all", folder="d").lines
