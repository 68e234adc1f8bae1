"""What a server knows that begins with the database of another one: all that mattered before."""
import os
import signal

from trees import Tree, end_server, ended, sleepers

MANY = 100_000
"""More names than a database once took."""
ABOVE = "echo all >>ran\nredo-ifchange {}\n"
WARNING = "redo: x was changed by hand: it stays as it is\n"


def restarted(tree: Tree) -> None:
    """Has the next call take a new server, and a database that was started again."""
    end_server(tree)
    tree.until("the database ends", lambda: not sleepers(tree, True))


def builds(tree: Tree, what: str, *targets: str) -> None:
    """Checks what is built for all after a restart, and that nothing is then, after another one."""
    restarted(tree)
    run = tree.ifchange("all")
    tree.check.same(what, sorted(run.built), sorted(targets))
    restarted(tree)
    tree.check.same(f"{what}: then nothing", tree.ifchange("all").built, [])


def case_restart_with_stamped_targets(tree: Tree) -> None:
    """What a build stamped, or its file's content, is compared with what another server knew."""
    tree.files(all__do=ABOVE.format("s c"), in1="1\n", in2="1\n", note="1\n")
    tree.files(s__do="redo-ifchange in1 note\ncat in1 note\nredo-stamp <in1\n")
    tree.files(c__do="redo-ifchange in2 note\ncat in2\n")
    tree.ifchange("all")
    builds(tree, "at first")
    tree.write("note", "2\n")
    builds(tree, "the same marks", "c", "s")
    tree.write("in1", "2\n")
    builds(tree, "another stamp", "all", "s")
    tree.write("in2", "2\n")
    builds(tree, "other content", "all", "c")
    tree.write("in1", "1\n")
    builds(tree, "the stamp before that", "all", "s")


def case_restart_and_no_rule(tree: Tree) -> None:
    """A target whose .do file is gone keeps its mark: what isn't built for that is up to date."""
    tree.files(p__do="redo-ifchange s c\n", q__do="redo-ifchange s c\n", in1="1\n")
    tree.files(s__do="redo-ifchange in1\necho made\nredo-stamp <in1\n")
    tree.files(c__do="redo-ifchange in1\ncat in1\n", all__do=ABOVE.format("q"))
    tree.ifchange("p", "all")
    for name in ("s", "c"):
        tree.path(f"{name}.do").unlink()
        restarted(tree)
        tree.check.same(f"{name} is left", tree.ifchange("p").built, ["p"])
        builds(tree, f"{name} is known to be as it was")
    tree.files(c__do="redo-ifchange in1\necho 1\n")
    builds(tree, "another rule, and the same content", "c")


def case_restart_with_edited_targets(tree: Tree) -> None:
    """An edited target is one still, and is none once its file is what its build left."""
    tree.files(all__do=ABOVE.format("x"), x__do="redo-ifchange y\ncat y\n", y="1\n")
    tree.ifchange("all")
    tree.write("x", "by hand\n")
    builds(tree, "edited between two servers", "all")
    tree.check.same("listed", tree.run("redo-targets", "--edited").out, "x\n")
    tree.check.same("why", tree.run("redo-why", "x").out, "x edited\n")
    tree.write("y", "2\n")
    restarted(tree)
    run = tree.ifchange("all")
    tree.check.same("it stays", (run.built, run.err, tree.read("x")), ([], WARNING, "by hand\n"))
    tree.write("x", "1\n")
    builds(tree, "as its build left it", "all", "x")
    tree.check.same("none", tree.run("redo-targets", "--edited").out, "")
    tree.check.same("x", tree.read("x"), "2\n")


def case_restart_with_failed_targets(tree: Tree) -> None:
    """A target that failed is built again, and what that build left is no edit."""
    tree.files(all__do=ABOVE.format("x y"), x__do="redo-ifchange go\ncat go\n", go="1\n")
    tree.files(y__do="redo-ifchange go\nexit $(cat go)\n")
    tree.check.same("fails", tree.run("redo-ifchange", "all").status, 1)
    restarted(tree)
    tree.check.same("why", tree.run("redo-why", "y").out, "y failed\n")
    tree.check.same("fails again", tree.run("redo-ifchange", "all").status, 1)
    tree.write("go", "0\n")
    builds(tree, "then it is built", "all", "x", "y")
    tree.write("x.do", "redo-ifchange go\necho bad >x\nexit 1\n")
    tree.check.same("fails", tree.run("redo-ifchange", "all").status, 1)
    restarted(tree)
    tree.check.same("no edit", tree.run("redo-targets", "--edited").out, "")
    tree.write("x.do", "redo-ifchange go\necho good\n")
    builds(tree, "it is built over that", "all", "x")
    tree.check.same("x", tree.read("x"), "good\n")


def case_restart_with_absent_names(tree: Tree) -> None:
    """A name that was to be absent, a target without a file, and a file that is gone."""
    tree.files(all__do=ABOVE.format("x n"), x__do="redo-ifcreate new\nredo-ifchange y\necho x\n")
    tree.files(n__do="redo-ifchange y\n", y="1\n")
    tree.ifchange("all")
    builds(tree, "at first")
    tree.write("new", "")
    restarted(tree)
    tree.check.same("why", tree.run("redo-why", "x").out, "x <- new appeared\n")
    tree.files(x__do="redo-ifchange y\necho x\n")
    builds(tree, "it appeared", "x")
    tree.path("x").unlink()
    restarted(tree)
    tree.check.same("why", tree.run("redo-why", "all").out, "all <- x gone\n")
    builds(tree, "it is gone", "x")
    tree.write("y", "2\n")
    builds(tree, "a target without a file was built", "all", "n", "x")


def case_restart_with_builds_that_were_killed(tree: Tree) -> None:
    """What was building when all was killed is built again, whatever is in its place."""
    tree.files(x__do="redo-ifchange y\n: >begun\nwhile [ ! -e go ]; do sleep 0.1; done\ncat y\n")
    tree.files(all__do=ABOVE.format("x"), y="1\n")
    run = tree.start("redo-ifchange", "all")
    tree.until("x begins", tree.path("begun").exists)
    while processes := list(sleepers(tree, True)):
        for process in processes:
            try:
                os.kill(process, signal.SIGKILL)
            except ProcessLookupError:
                continue
    ended(run)
    tree.files(x="what nobody knows\n", go="")
    tree.check.same("why", tree.run("redo-why", "x").out, "x failed\n")
    builds(tree, "it is built", "all", "x")
    tree.check.same("x", tree.read("x"), "1\n")


def case_restart_with_very_many_names(tree: Tree) -> None:
    """More names than 65,536 are known to the next server, and are looked at."""
    last = MANY - 1
    tree.files(x__do="redo-ifchange n7\ncat n7\n", n7="7\n")
    tree.files(y__do=f"redo-ifchange n{last}\ncat n{last}\n")
    tree.redo("x")
    restarted(tree)
    with open(tree.path(".redo/log"), "a", encoding="ascii") as log:
        log.writelines(f"1 file n{number} 1 => ok\n" for number in range(MANY) if number != 7)
    tree.write(f"n{last}", "9\n")
    tree.redo("y")
    tree.check.same("y", tree.read("y"), "9\n")
    tree.check.same("x", tree.ifchange("x").built, [])
    tree.write("n7", "8\n")
    restarted(tree)
    tree.check.same("why", tree.run("redo-why", "x").out, "x <- n7 changed\n")
    tree.check.same("x", tree.ifchange("x", "y").built, ["x"])
