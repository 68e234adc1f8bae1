"""What is built again, and what isn't."""
import os
import time

from trees import Tree

LINK = "echo ran >>ran.app\nredo-ifchange util.o main.o\ncat util.o main.o\n"
COMPILE = 'echo ran >>ran.$2\nredo-ifchange "$2.c"\ncat "$2.c"\n'


def small_program(tree: Tree) -> None:
    """Writes a tree of an app that is made of two objects."""
    tree.files(app__do=LINK, default__o__do=COMPILE, util__c="util\n", main__c="main\n")


def runs(tree: Tree) -> tuple[int, int, int]:
    """How often the scripts of app, util.o and main.o ran."""
    return tree.count("ran.app"), tree.count("ran.util"), tree.count("ran.main")


def case_ifchange(tree: Tree) -> None:
    """redo-ifchange builds what is out of date, and only that."""
    small_program(tree)
    tree.ifchange("app")
    tree.check.same("first", (tree.read("app"), runs(tree)), ("util\nmain\n", (1, 1, 1)))
    tree.ifchange("app")
    tree.check.same("nothing to do", runs(tree), (1, 1, 1))
    tree.write("util.c", "new\n")
    tree.ifchange("app")
    tree.check.same("one source", (tree.read("app"), runs(tree)), ("new\nmain\n", (2, 2, 1)))


def case_redo_builds_in_any_case(tree: Tree) -> None:
    """redo builds its targets in any case, and what they need only if that is out of date."""
    small_program(tree)
    tree.redo("app")
    tree.redo("app")
    tree.check.same("runs", runs(tree), (2, 1, 1))


def case_removed_target(tree: Tree) -> None:
    """A target whose file is gone is built again.

    Its content is the same: that builds nothing else.
    """
    small_program(tree)
    tree.redo("app")
    tree.path("util.o").unlink()
    tree.ifchange("app")
    tree.check.same("runs", runs(tree), (1, 2, 1))


def case_source_without_rule(tree: Tree) -> None:
    """A file that no build made is a source, also if a .do file would match."""
    tree.files(default__do="echo made\n", x__do="redo-ifchange y\ncat y\n", y="by hand\n")
    tree.redo("x")
    tree.check.same("x", tree.read("x"), "by hand\n")
    run = tree.redo("y")
    tree.check.has("redo y", run.err, "y is there, and no build made it")
    tree.check.same("y", tree.read("y"), "by hand\n")


def case_missing_source(tree: Tree) -> None:
    """A name without a file and without a rule is an error."""
    tree.files(x__do="redo-ifchange nothing\n")
    run = tree.run("redo", "x")
    tree.check.same("status", run.status, 1)
    tree.check.has("message", run.err, "no rule to make nothing")


def case_touched_source(tree: Tree) -> None:
    """A source is known by its content and its bits of execution: another time is no change."""
    tree.files(x__do="echo ran >>ran\nredo-ifchange y\ncat y\n", y="text\n")
    tree.redo("x")
    os.utime(tree.path("y"), ns=(1, 2))
    tree.ifchange("x")
    tree.check.same("time", tree.count("ran"), 1)
    os.chmod(tree.path("y"), 0o600)
    tree.ifchange("x")
    tree.check.same("mode for reading", tree.count("ran"), 1)
    tree.path("z").write_text("text\n")
    os.rename(tree.path("z"), tree.path("y"))
    tree.ifchange("x")
    tree.check.same("inode", tree.count("ran"), 1)
    for number, mode in enumerate((0o744, 0o755, 0o644), 2):
        os.chmod(tree.path("y"), mode)
        tree.ifchange("x")
        tree.check.same(f"execution by {mode:o}", tree.count("ran"), number)
    before = tree.path("y").stat()
    with open(tree.path("y"), "r+", encoding="utf-8") as file:
        file.write("TEXT")
    os.utime(tree.path("y"), ns=(before.st_atime_ns, before.st_mtime_ns))
    tree.ifchange("x")
    tree.check.same("content", (tree.count("ran"), tree.read("x")), (5, "TEXT\n"))
    tree.ifchange("x")
    tree.check.same("nothing", tree.count("ran"), 5)


def case_ifcreate(tree: Tree) -> None:
    """redo-ifcreate has the target built again once a file is there."""
    tree.files(
        x__do="echo ran >>ran\nif [ -e y ]; then redo-ifchange y; else redo-ifcreate y; fi\n"
    )
    tree.redo("x")
    tree.ifchange("x")
    tree.check.same("not there", tree.count("ran"), 1)
    tree.write("y", "text\n")
    tree.ifchange("x")
    tree.check.same("there", tree.count("ran"), 2)
    tree.ifchange("x")
    tree.check.same("still there", tree.count("ran"), 2)


def case_ifcreate_of_a_file(tree: Tree) -> None:
    """redo-ifcreate of a file that is there is an error."""
    tree.files(x__do="redo-ifcreate y\n", y="text\n")
    run = tree.run("redo", "x")
    tree.check.same("status", run.status, 1)
    tree.check.has("message", run.err, "redo-ifcreate: y is there already")


def case_always(tree: Tree) -> None:
    """redo-always has the target built in each run, once."""
    tree.files(
        x__do="echo ran >>ran\nredo-always\n",
        y__do="redo-ifchange x\n",
        z__do="redo-ifchange x y\n",
    )
    for count in (1, 2, 3):
        tree.ifchange("z")
        tree.check.same(f"run {count}", tree.count("ran"), count)


def case_stamp(tree: Tree) -> None:
    """After redo-stamp of the same bytes, what depends on the target isn't built again."""
    tree.files(
        x__do="echo ran >>ran.x\nredo-always\ncat y\nredo-stamp <y\n",
        z__do="echo ran >>ran.z\nredo-ifchange x\ncat x\n",
        y="one\n",
    )
    tree.redo("z")
    for count, text, wanted in ((2, "one\n", 1), (3, "two\n", 2), (4, "two\n", 2)):
        tree.write("y", text)
        tree.ifchange("z")
        tree.check.same(
            f"runs {count}", (tree.count("ran.x"), tree.count("ran.z")), (count, wanted)
        )
    tree.check.same("z", tree.read("z"), "two\n")


def case_stamp_further_up(tree: Tree) -> None:
    """That holds for a chain above the target, too: nothing of it is built."""
    tree.files(
        a__do="redo-always\nredo-stamp </dev/null\n",
        b__do="echo ran >>ran.b\nredo-ifchange a\n",
        c__do="echo ran >>ran.c\nredo-ifchange b\n",
        d__do="echo ran >>ran.d\nredo-ifchange c\n",
    )
    tree.redo("d")
    run = tree.ifchange("d")
    tree.check.same("built", run.built, ["a"])
    tree.check.same("runs", [tree.count(f"ran.{name}") for name in "bcd"], [1, 1, 1])


def case_changed_by_hand(tree: Tree) -> None:
    """A target that was changed by hand stays, with a warning in each run that wants it; what
    needs it is built again, once."""
    small_program(tree)
    tree.redo("app")
    tree.write("util.o", "by hand\n")
    run = tree.ifchange("app")
    tree.check.has("warning", run.err, "util.o was changed by hand")
    tree.check.same("app", (tree.read("app"), runs(tree)), ("by hand\nmain\n", (2, 1, 1)))
    warning = "redo: util.o was changed by hand: it stays as it is\n"
    for _ in range(2):
        run = tree.ifchange("app")
        tree.check.same("each run", (run.err, runs(tree)), (warning, (2, 1, 1)))
    tree.check.same("one that doesn't want it", tree.ifchange("main.o").err, "")
    run = tree.redo("util.o")
    tree.check.has("redo", run.err, "util.o was changed by hand")
    tree.check.same("util.o", tree.read("util.o"), "by hand\n")


def case_changed_by_hand_and_out_of_date(tree: Tree) -> None:
    """It stays as well if what it was built from has changed, too."""
    small_program(tree)
    tree.redo("app")
    tree.write("util.o", "by hand\n")
    tree.write("util.c", "new\n")
    run = tree.ifchange("app")
    tree.check.has("warning", run.err, "util.o was changed by hand")
    tree.check.same("app", (tree.read("app"), runs(tree)), ("by hand\nmain\n", (2, 1, 1)))


def case_changed_by_hand_and_removed(tree: Tree) -> None:
    """Once such a file is removed, the target is built again."""
    small_program(tree)
    tree.redo("app")
    tree.write("util.o", "by hand\n")
    tree.ifchange("app")
    tree.path("util.o").unlink()
    tree.ifchange("app")
    tree.check.same("app", tree.read("app"), "util\nmain\n")


def case_changed_by_hand_after_a_failure(tree: Tree) -> None:
    """That holds for a target whose latest build failed, too."""
    tree.files(x__do="echo old\n")
    tree.redo("x")
    tree.files(x__do="exit 1\n")
    tree.check.same("fails", tree.run("redo", "x").status, 1)
    tree.write("x", "by hand\n")
    run = tree.ifchange("x")
    tree.check.has("warning", run.err, "x was changed by hand")
    tree.check.same("x", tree.read("x"), "by hand\n")


def case_failed_target(tree: Tree) -> None:
    """A target whose build failed is tried again in the next run."""
    tree.files(x__do="redo-ifchange y\n[ -s y ]\necho made\n", y="")
    tree.check.same("fails", tree.run("redo", "x").status, 1)
    tree.check.same("fails again", tree.run("redo-ifchange", "x").status, 1)
    tree.write("y", "text\n")
    tree.ifchange("x")
    tree.check.same("x", tree.read("x"), "made\n")


def case_need_that_fails(tree: Tree) -> None:
    """If what a target needed can't be built, its script finds out whether it needs it still."""
    tree.files(
        x__do="[ -e alone ] || redo-ifchange y\necho x >>ran\n", y__do="redo-ifchange z\n", z=""
    )
    tree.redo("x")
    tree.path("z").unlink()
    run = tree.run("redo-ifchange", "x")
    tree.check.same("needs it", (run.status, tree.count("ran")), (1, 1))
    tree.write("alone", "")
    run = tree.ifchange("x")
    tree.check.same("doesn't need it", tree.count("ran"), 2)
    tree.check.same("nothing", tree.ifchange("x").built, [])


def case_folder_as_source(tree: Tree) -> None:
    """A folder can be a source; it never changes."""
    tree.files(x__do="echo ran >>ran\nredo-ifchange d\n")
    tree.write("d/a", "")
    tree.redo("x")
    tree.write("d/b", "")
    tree.ifchange("x")
    tree.check.same("ran", tree.count("ran"), 1)
    tree.check.same("redo", tree.redo("d").built, [])


def case_rule_that_is_gone(tree: Tree) -> None:
    """A target whose .do file is gone becomes a file like any other."""
    tree.files(x__do="echo made\n", y__do="redo-ifchange x\ncat x\n")
    tree.redo("y")
    tree.path("x.do").unlink()
    tree.ifchange("y")
    tree.check.same("y", tree.read("y"), "made\n")
    tree.check.same("then nothing", tree.ifchange("y").built, [])


def case_once_in_a_run(tree: Tree) -> None:
    """A target is built at most once in a run, whoever asks for it and by which program."""
    tree.files(
        x__do="echo ran >>ran\nredo-always\n",
        y__do="redo x\nredo-ifchange x\nredo x\n",
        z__do="redo x y\n",
    )
    tree.redo("-j3", "z", "x", "y", "z")
    tree.check.same("ran", tree.count("ran"), 1)


def case_edited_while_it_is_built(tree: Tree) -> None:
    """A source that is edited while a script reads it makes the target out of date."""
    tree.files(x__do="redo-ifchange y\ncat y\necho new >y\n", y="old\n")
    tree.redo("x")
    tree.write("x.do", "redo-ifchange y\ncat y\n")
    tree.ifchange("x")
    tree.check.same("x", tree.read("x"), "new\n")


def case_many_names(tree: Tree) -> None:
    """redo-ifchange takes thousands of names."""
    for number in range(3000):
        tree.write(f"d/source-with-a-rather-long-name-{number}", "text\n")
    tree.files(x__do="echo ran >>ran\nls d/* | xargs -n 2000 redo-ifchange\n")
    tree.redo("x")
    tree.ifchange("x")
    tree.check.same("nothing", tree.count("ran"), 1)
    tree.write("d/source-with-a-rather-long-name-2999", "new\n")
    tree.ifchange("x")
    tree.check.same("one", tree.count("ran"), 2)


def case_long_chain(tree: Tree) -> None:
    """A chain of a hundred targets is built, and built again from its end."""
    tree.files(default__n__do='redo-ifchange "$(($2 - 1)).n"\ncat "$(($2 - 1)).n"\necho "$2"\n')
    tree.write("0.n", "")
    run = tree.redo("100.n")
    tree.check.same("built", len(run.built), 100)
    time.sleep(0.01)
    tree.write("0.n", "new")
    tree.check.same("again", len(tree.ifchange("100.n").built), 100)
    tree.check.same("nothing", tree.ifchange("100.n").built, [])
