"""Failures, rings, and runs that are stopped."""
import signal
import time

from trees import Tree, ended, sleepers

SLOW = 'echo "$2" >"$3"\n: >"began.$2"\nredo-ifchange needed 2>/dev/null\nsleep 60\n'


def case_failure_stops(tree: Tree) -> None:
    """After a failure, no further target of the same call is begun; the status is 1."""
    tree.files(a__do="exit 1\n", b__do="echo ran >>ran\n")
    run = tree.run("redo", "a", "b")
    tree.check.same("status", run.status, 1)
    tree.check.same("b", tree.count("ran"), 0)


def case_keep_going(tree: Tree) -> None:
    """With -k, all are built that can be; the status is 1 all the same."""
    tree.files(
        a__do="exit 1\n",
        b__do="echo ran >>ran\n",
        c__do="redo-ifchange a\necho ran >>ran\n",
        d__do="redo-ifchange a b\n",
    )
    run = tree.run("redo", "-k", "a", "d", "c")
    tree.check.same("status", run.status, 1)
    tree.check.same("b", tree.count("ran"), 1)
    tree.check.same("begun", sorted(run.built), ["a", "b", "c", "d"])


def case_failed_after_builds_without_log(tree: Tree) -> None:
    """A target that failed, and whose file is of a build without a log, is built again."""
    tree.files(a__do="redo-ifchange b stop\ntest ! -s stop\ncat b\n", b="1\n", stop="")
    tree.redo("a")
    tree.write("b", "22\n")
    tree.redo("--no-log", "a")
    tree.write("stop", "now\n")
    tree.check.same("status", tree.run("redo", "--no-log", "a").status, 1)
    tree.check.same("log", tree.run("redo-log", "a").status, 1)
    tree.write("stop", "")
    tree.redo("a")
    tree.check.same("a", tree.read("a"), "22\n")
    tree.write("b", "333\n")
    tree.redo("a")
    tree.check.same("a", tree.read("a"), "333\n")


def case_caught_failure(tree: Tree) -> None:
    """A script can go on after a redo-ifchange that failed."""
    tree.files(
        a__do="exit 1\n", b__do="echo b\n", c__do="redo-ifchange a || redo-ifchange b\ncat b\n"
    )
    tree.redo("c")
    tree.check.same("c", tree.read("c"), "b\n")


def case_failed_once_in_a_run(tree: Tree) -> None:
    """A target that failed isn't tried again in the run."""
    tree.files(
        a__do="echo ran >>ran\nexit 1\n", b__do="redo-ifchange a\n", c__do="redo-ifchange a\n"
    )
    run = tree.run("redo", "-k", "b", "c")
    tree.check.same("status", run.status, 1)
    tree.check.same("ran", tree.count("ran"), 1)


def case_target_that_needs_itself(tree: Tree) -> None:
    """A target that needs itself is an error."""
    tree.files(a__do="redo-ifchange a\n")
    run = tree.run("redo", "a")
    tree.check.same("status", run.status, 1)
    tree.check.has("message", run.err, "a needs itself")


def case_ring(tree: Tree) -> None:
    """Targets that need each other are an error that names the ring."""
    tree.files(a__do="redo-ifchange b\n", b__do="redo-ifchange c\n", c__do="redo-ifchange a\n")
    run = tree.run("redo", "-j2", "a")
    tree.check.same("status", run.status, 1)
    tree.check.has("message", run.err, "a -> b -> c -> a")


def case_ring_across_runs(tree: Tree) -> None:
    """A ring of which two runs build a part each is reported, too; none of them hangs."""
    wait = "while ! [ -e began.%s ]; do sleep 0.01; done\n"
    tree.files(
        a__do=": >began.a\n" + wait % "b" + "redo-ifchange b\n",
        b__do=": >began.b\n" + wait % "a" + "redo-ifchange a\n",
    )
    first, second = tree.start("redo", "a"), tree.start("redo", "b")
    runs = [ended(first), ended(second)]
    said = "".join(run.err for run in runs)
    tree.check.true("named", "a -> b -> a" in said or "b -> a -> b" in said)
    tree.check.true("a status is 1", 1 in [run.status for run in runs])


def case_former_ring(tree: Tree) -> None:
    """After a ring was undone, its targets are built."""
    tree.files(a__do="redo-ifchange b\necho a\n", b__do="redo-ifchange a\necho b\n")
    tree.check.same("ring", tree.run("redo", "a").status, 1)
    tree.files(b__do="echo b\n")
    tree.ifchange("a")
    tree.check.same("a", tree.read("a"), "a\n")


def case_interrupted(tree: Tree) -> None:
    """Ctrl-C ends all builds, marks them failed, and leaves no $3 file and no lock."""
    stopped(tree, signal.SIGINT)


def case_terminated(tree: Tree) -> None:
    """SIGTERM does the same."""
    stopped(tree, signal.SIGTERM)


def stopped(tree: Tree, number: signal.Signals) -> None:
    tree.files(default__slow__do=SLOW, needed__do=": >began.needed\nsleep 60\n")
    process = tree.start("redo", "-j3", "a.slow", "b.slow")
    tree.until(
        "began", lambda: tree.path("began.needed").exists() and tree.path("began.b").exists()
    )
    process.send_signal(number)
    began = time.monotonic()
    run = ended(process)
    tree.check.same("status", run.status, -number)
    tree.check.true("at once", time.monotonic() - began < 10)
    tree.check.same("left over", tree.left_over(), [])
    tree.files(default__slow__do="echo now\n", needed__do=":\n")
    tree.check.same(
        "why", tree.run("redo-why", "a.slow", "needed").out, "a.slow failed\nneeded failed\n"
    )
    tree.redo("a.slow", "b.slow")
    tree.check.same("a.slow", tree.read("a.slow"), "now\n")
    tree.check.same("sleepers", sleepers(tree, False), {})


def case_hung_up(tree: Tree) -> None:
    """SIGHUP does the same, too."""
    stopped(tree, signal.SIGHUP)


def case_stubborn_script(tree: Tree) -> None:
    """A script that ignores SIGTERM is killed a second later."""
    tree.files(x__do="trap '' TERM\n: >began\nwhile :; do sleep 0.05; done\n")
    process = tree.start("redo", "x")
    tree.until("began", tree.path("began").exists)
    process.send_signal(signal.SIGINT)
    tree.check.same("status", ended(process).status, -signal.SIGINT)
    tree.check.same("sleepers", sleepers(tree, False), {})
    tree.check.same("left over", tree.left_over(), [])


def case_killed(tree: Tree) -> None:
    """A run that is killed by SIGKILL leaves no script behind, and no lock: the next run builds.

    A build that is done again removes the files that the killed one left.
    """
    tree.files(default__slow__do=SLOW, needed__do=": >began.needed\nsleep 60\n")
    process = tree.start("redo", "a.slow")
    tree.until("began", tree.path("began.needed").exists)
    process.kill()
    ended(process)
    tree.files(default__slow__do="echo now\n", needed__do=":\n")
    tree.redo("a.slow", "needed")
    tree.check.same("a.slow", tree.read("a.slow"), "now\n")
    tree.check.same("left over", tree.left_over(), [])
    tree.check.same("sleepers", sleepers(tree, False), {})


def case_second_run(tree: Tree) -> None:
    """A run that needs what another one builds waits for it, and doesn't build it again."""
    tree.files(x__do="echo ran >>ran\n: >began\nwhile ! [ -e go ]; do sleep 0.01; done\necho x\n")
    first = tree.start("redo", "x")
    tree.until("began", tree.path("began").exists)
    second = tree.start("redo-ifchange", "x")
    time.sleep(0.3)
    tree.check.same("waits", second.poll(), None)
    tree.write("go", "")
    tree.check.same("statuses", [ended(first).status, ended(second).status], [0, 0])
    tree.check.same("ran", tree.count("ran"), 1)


def case_killed_script(tree: Tree) -> None:
    """A script that is killed fails, and the signal is reported."""
    tree.files(x__do="echo text\nkill -9 $$\n")
    run = tree.run("redo", "x")
    tree.check.same("status", run.status, 1)
    tree.check.has("message", run.err, "x: killed by SIGKILL")
    tree.check.same("left over", tree.left_over(), [])


def case_no_do_file(tree: Tree) -> None:
    """Without a .do file there is an error, and the status is 1."""
    run = tree.run("redo")
    tree.check.same("status", run.status, 1)
    tree.check.has("message", run.err, "no rule to make all")


def case_programs_of_do_files(tree: Tree) -> None:
    """redo-ifcreate, redo-always and redo-stamp are for .do files; elsewhere they are refused."""
    for words in (["redo-ifcreate", "x"], ["redo-always"], ["redo-stamp"]):
        run = tree.run(*words)
        tree.check.same(words[0], (run.status, "for .do files" in run.err), (2, True))


def case_program_after_its_run(tree: Tree) -> None:
    """A program that a script left behind fails, once the script has ended."""
    tree.files(
        x__do="sh ./left >/dev/null 2>&1 &\n",
        left="while ! [ -e go ]; do sleep 0.01; done\nredo-ifchange y\necho $? >status\n",
        y="text\n",
    )
    tree.redo("x")
    tree.write("go", "")
    tree.until("status", lambda: tree.read("status").endswith("\n"))
    tree.check.same("status", tree.read("status"), "1\n")
