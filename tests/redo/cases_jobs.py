"""Several scripts at once, and GNU make's jobserver both ways."""
import os
import select

from trees import Tree, needs

# notes how many scripts run at once, the greatest number in `most`
BUSY = """mkdir -p at_once
: >"at_once/$1"
ls at_once | wc -l >>numbers
sleep 0.3
rm "at_once/$1"
"""


def most(tree: Tree) -> int:
    """The greatest number of scripts that ran at once."""
    return max(int(line) for line in tree.read("numbers").split())


def busy(tree: Tree, count: int) -> list[str]:
    """Writes the rule of this many targets."""
    tree.write("default.busy.do", BUSY)
    return [f"{number}.busy" for number in range(count)]


def case_one_job(tree: Tree) -> None:
    """Without -j, one script runs at a time, in the order that was asked for."""
    targets = busy(tree, 4)
    run = tree.redo(*targets)
    tree.check.same("most", most(tree), 1)
    tree.check.same("order", run.built, targets)


def case_three_jobs(tree: Tree) -> None:
    """With -j 3, three scripts run at a time, and no more."""
    for words in (["-j3"], ["-j", "3"], ["--jobs=3"]):
        tree.path("numbers").unlink(missing_ok=True)
        tree.redo(*words, *busy(tree, 7))
        tree.check.same(f"most with {words}", most(tree), 3)


def case_waiting_script_has_no_token(tree: Tree) -> None:
    """A script that waits in redo-ifchange doesn't count as a job."""
    tree.write("default.busy.do", BUSY)
    tree.files(x__do="redo-ifchange y\n", y__do="redo-ifchange 1.busy 2.busy 3.busy\n")
    tree.redo("x")
    tree.check.same("most at 1", most(tree), 1)
    tree.path("numbers").unlink()
    for name in "123":
        tree.write(f"{name}.busy.do", BUSY)
    tree.redo("-j2", "x", "y", "1.busy", "2.busy", "3.busy")
    tree.check.same("most at 2", most(tree), 2)


def case_needs_at_once(tree: Tree) -> None:
    """What a target is known to need is built at once, if its script asks for one by one."""
    tree.write("default.busy.do", BUSY + "redo-ifchange in\n")
    tree.files(x__do="redo-ifchange 1.busy\nredo-ifchange 2.busy\n")
    tree.write("in", "one")
    tree.redo("-j2", "x")
    tree.check.same("most at first", most(tree), 1)
    tree.write("in", "other")
    tree.write("all.do", "redo-ifchange x\n")
    tree.redo("-j2")
    tree.check.same("most then", most(tree), 2)


def case_options_in_a_do_file(tree: Tree) -> None:
    """Options of a `redo` in a .do file are read, and change nothing."""
    tree.write("default.busy.do", BUSY)
    tree.files(x__do="redo -k -j9 --shuffle 1.busy 2.busy\n", y__do="redo --nothing\n")
    tree.redo("x")
    tree.check.same("most", most(tree), 1)
    run = tree.run("redo", "y")
    tree.check.has("wrong one", run.err, "redo: there is no option --nothing")
    tree.check.has("status", run.err, "y: status 2")


def case_two_requests_at_once(tree: Tree) -> None:
    """A script can ask twice at once; nobody hangs."""
    tree.write("default.busy.do", BUSY)
    tree.files(x__do="redo-ifchange 1.busy & redo-ifchange 2.busy\nwait $!\n")
    for jobs in ("-j1", "-j2", "-j8"):
        tree.redo(jobs, "x")


def case_open_files(tree: Tree) -> None:
    """More scripts may wait than files may be open by default, which they still have."""
    tree.files(default__n__do='[ "$2" = 0 ] || redo-ifchange "$(($2 - 1)).n"\nulimit -n\n')
    tree.run("sh", "-c", "ulimit -S -n 64; redo 60.n")
    tree.check.same("limit", tree.read("60.n"), "64\n")


def case_files_of_the_asker(tree: Tree) -> None:
    """A server keeps no file of the `redo` that started it: a pipe ends while the server is there."""
    tree.files(x__do="echo x\n")
    reading, writing = os.pipe()
    tree.redo("x", pass_fds=(writing,))
    os.close(writing)
    ends = select.select([reading], [], [], 1.0)[0] and os.read(reading, 1) == b""
    tree.check.true("the server is there", tree.path(".redo/server/socket").exists())
    tree.check.true("the pipe ends", ends)
    os.close(reading)


def case_shuffle(tree: Tree) -> None:
    """With --shuffle, the order is a random one."""
    tree.write("default.t.do", ":\n")
    targets = [f"{number}.t" for number in range(40)]
    orders = [tree.redo("--shuffle", *targets).built for _ in range(2)]
    tree.check.same("the same targets", [sorted(order) for order in orders], [sorted(targets)] * 2)
    tree.check.true("another order", orders[0] != targets and orders[0] != orders[1])


def case_make_under_redo(tree: Tree) -> None:
    """`make` in a script shares the jobs of `redo -j`: together they run no more."""
    needs("make")
    tree.write("default.busy.do", BUSY)
    recipe = BUSY.replace("$1", "make$@").replace("\n", "; ").rstrip("; ")
    tree.write("Makefile", f"all: a b c d e f\na b c d e f:\n\t@{recipe}\n")
    tree.files(made__do="make >&2\n")
    run = tree.redo("-j3", "made", "1.busy", "2.busy", "3.busy", "4.busy")
    tree.check.true(f"most is {most(tree)}", 1 < most(tree) <= 3)
    tree.check.same("warnings of make", [line for line in run.lines if "jobserver" in line], [])


def case_redo_under_make(tree: Tree) -> None:
    """`redo` in a recipe shares the jobs of `make -j`."""
    needs("make")
    targets = " ".join(busy(tree, 8))
    tree.write("Makefile", f"all: one two\none:\n\t+redo {targets}\ntwo:\n\t@sleep 0.1\n")
    run = tree.run("make", "-j3")
    tree.check.same(f"status ({run.err})", run.status, 0)
    tree.check.true(f"most is {most(tree)}", 1 < most(tree) <= 3)
    tree.path("numbers").unlink()
    run = tree.run("make")
    tree.check.same(f"status ({run.err})", run.status, 0)
    tree.check.same("without -j", most(tree), 1)


def case_tokens_are_given_back(tree: Tree) -> None:
    """All tokens are given back to a jobserver on two descriptors, also after a failure."""
    targets = busy(tree, 6)
    tree.write("bad.do", "exit 1\n")
    read, write = os.pipe()
    os.write(write, b"abc")
    flags = {"MAKEFLAGS": f" -j4 --jobserver-auth={read},{write}"}
    tree.redo(*targets, environment=flags, pass_fds=(read, write))
    tree.check.true(f"most is {most(tree)}", 1 < most(tree) <= 4)
    tree.check.same(
        "status", tree.run("redo", "bad", environment=flags, pass_fds=(read, write)).status, 1
    )
    os.set_blocking(read, False)
    tree.check.same("tokens", sorted(os.read(read, 100)), sorted(b"abc"))
    os.close(read)
    os.close(write)


def case_jobserver_on_a_fifo(tree: Tree) -> None:
    """A jobserver on a FIFO, as newer makes have it, is used as well."""
    targets = busy(tree, 6)
    os.mkfifo(tree.path("fifo"))
    end = os.open(tree.path("fifo"), os.O_RDWR | os.O_NONBLOCK)
    os.write(end, b"ab")
    tree.redo(
        *targets, environment={"MAKEFLAGS": f" -j3 --jobserver-auth=fifo:{tree.path('fifo')}"}
    )
    tree.check.true(f"most is {most(tree)}", 1 < most(tree) <= 3)
    tree.check.same("tokens", sorted(os.read(end, 100)), sorted(b"ab"))
    os.close(end)


def case_unreachable_jobserver(tree: Tree) -> None:
    """A jobserver that can't be reached is reported, and one script runs at a time."""
    targets = busy(tree, 3)
    run = tree.redo(*targets, environment={"MAKEFLAGS": " -j4 --jobserver-auth=97,98"})
    tree.check.has("message", run.err, "jobserver 97,98 can't be reached")
    tree.check.same("most", most(tree), 1)


def case_wrong_options(tree: Tree) -> None:
    """An option that isn't known, or a number of jobs that is none, is refused with status 2."""
    for words in (["-y"], ["--why"], ["-j"], ["-j0"], ["-jx"], ["--keep-going=1"]):
        run = tree.run("redo", *words)
        tree.check.same(f"{words}", (run.status, run.err.startswith("redo: ")), (2, True))
    tree.check.same("ifchange", tree.run("redo-ifchange", "-k", "x").status, 2)
