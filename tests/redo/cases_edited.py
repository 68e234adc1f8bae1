"""Targets that somebody edited by hand: nothing of theirs is lost, and nothing is frozen."""
import os
import signal
import subprocess

from trees import Tree, end_server

COPY = "echo ran >>ran\nredo-ifchange y\ncat y\n"
WARNING = "redo: x was changed by hand: it stays as it is\n"


def edited(tree: Tree) -> None:
    """Builds x from y, and all from x; then somebody edits x."""
    tree.files(x__do=COPY, y="AAAA\n", all__do="redo-ifchange x\ncat x\n")
    tree.ifchange("all")
    tree.write("x", "by hand\n")


def case_warned_of_in_each_run(tree: Tree) -> None:
    """Each run that wants an edited target warns of it, also if nothing is to be done."""
    edited(tree)
    for number in range(3):
        tree.check.same(f"run {number}", tree.ifchange("all").err.count(WARNING), 1)
    tree.check.same("all", tree.read("all"), "by hand\n")
    tree.check.same("itself", tree.ifchange("x").err, WARNING)
    tree.check.same("one that doesn't want it", tree.ifchange("y").err, "")
    tree.check.same("nothing is built", tree.ifchange("all").built, [])


def case_edited_targets_are_listed(tree: Tree) -> None:
    """redo-targets --edited lists them, and redo-why says so."""
    edited(tree)
    tree.check.same("listed", tree.run("redo-targets", "--edited").out, "x\n")
    tree.ifchange("all")
    tree.check.same("listed then", tree.run("redo-targets", "--edited").out, "x\n")
    tree.check.same("why", tree.run("redo-why", "x").out, "x edited\n")
    tree.path("d").mkdir()
    tree.check.same("from below", tree.run("redo-targets", "--edited", folder="d").out, "../x\n")
    tree.redo("--overwrite", "x")
    tree.check.same("none", tree.run("redo-targets", "--edited").out, "")


def case_edited_targets_have_one_name(tree: Tree) -> None:
    """No list and no reason has another name for what is built from an edited target."""
    edited(tree)
    tree.check.same("why at first", tree.run("redo-why", "all").out, "all <- x edited\n")
    tree.ifchange("all")
    tree.write("x", "by hand again\n")
    tree.check.same("why", tree.run("redo-why", "all").out, "all <- x changed\n")
    tree.check.same("sources", tree.run("redo-sources").out, "all.do\nx.do\ny\n")
    tree.path("d").mkdir()
    run = tree.run("redo-sources", folder="d")
    tree.check.same("sources from below", run.out, "../all.do\n../x.do\n../y\n")


def case_edited_and_restored(tree: Tree) -> None:
    """An edited target that is again as its build left it is up to date: it kept its rows."""
    edited(tree)
    tree.ifchange("all")
    tree.write("x", "AAAA\n")
    run = tree.ifchange("all")
    tree.check.same("x is right", (tree.count("ran"), WARNING in run.err), (1, False))
    tree.check.same("all", tree.read("all"), "AAAA\n")
    tree.write("y", "BBBB\n")
    tree.ifchange("all")
    tree.check.same("then it is built", tree.read("all"), "BBBB\n")


def case_edited_again(tree: Tree) -> None:
    """What is built from an edited target is built again after each edit of it, and not else."""
    edited(tree)
    for text in ("once\n", "twice\n"):
        tree.write("x", text)
        tree.ifchange("all")
        tree.check.same(text, tree.read("all"), text)
        tree.check.same("then nothing", tree.ifchange("all").built, [])
    tree.write("y", "BBBB\n")
    run = tree.ifchange("all")
    tree.check.same("source", (run.built, run.err, tree.read("all")), ([], WARNING, "twice\n"))


def case_overwrite(tree: Tree) -> None:
    """redo --overwrite builds an edited target, and what depends on it follows."""
    edited(tree)
    tree.ifchange("all")
    tree.redo("--overwrite", "x")
    tree.check.same("x", tree.read("x"), "AAAA\n")
    tree.ifchange("all")
    tree.check.same("all", tree.read("all"), "AAAA\n")
    tree.write("y", "BBBB\n")
    tree.ifchange("all")
    tree.check.same("then it follows", tree.read("all"), "BBBB\n")


def case_overwritten_by_the_same(tree: Tree) -> None:
    """If the build makes what was there by hand, the target is one like any other again."""
    edited(tree)
    tree.ifchange("all")
    tree.write("y", "by hand\n")
    tree.redo("--overwrite", "x")
    tree.ifchange("all")
    tree.write("y", "CCCC\n")
    tree.ifchange("all")
    tree.check.same("all", tree.read("all"), "CCCC\n")


def case_overwrite_in_a_do_file(tree: Tree) -> None:
    """Only who calls redo can overwrite: scripts can't, nor does it reach what a target needs."""
    edited(tree)
    tree.files(other__do="redo --overwrite x\n")
    tree.check.has("script", tree.redo("other").err, "x was changed by hand")
    tree.redo("--overwrite", "all")
    tree.check.same("x", tree.read("x"), "by hand\n")


def case_overwrite_that_fails(tree: Tree) -> None:
    """If that build fails, the file stays, and is still one that was edited."""
    edited(tree)
    tree.write("x.do", "exit 1\n")
    tree.check.same("fails", tree.run("redo", "--overwrite", "x").status, 1)
    tree.check.same("x", tree.read("x"), "by hand\n")
    tree.write("x", "by hand again\n")
    run = tree.ifchange("all")
    tree.check.has("warning", run.err, WARNING)
    tree.check.same("x then", tree.read("x"), "by hand again\n")


def case_rule_that_comes_back(tree: Tree) -> None:
    """A target whose rule vanished and came back is a target again."""
    tree.files(x__do=COPY, y="AAAA\n", all__do="redo-ifchange x\ncat x\n")
    tree.ifchange("all")
    os.rename(tree.path("x.do"), tree.path("away"))
    tree.ifchange("all")
    tree.check.same("without", tree.ifchange("all").built, [])
    os.rename(tree.path("away"), tree.path("x.do"))
    tree.write("y", "BBBB\n")
    tree.ifchange("all")
    tree.check.same("with it", tree.read("all"), "BBBB\n")


def case_fails_without_a_log(tree: Tree) -> None:
    """What a failed build left is known without logs: its target is edited only by hand."""
    for words in ([], ["--no-log"]):
        tree.path("x").unlink(missing_ok=True)
        tree.files(x__do="echo wrong >$1\n")
        tree.check.same(f"{words}: wrong", tree.run("redo", *words, "x").status, 1)
        tree.files(x__do="echo right\n")
        tree.redo(*words, "x")
        tree.check.same(f"{words}: x", tree.read("x"), "right\n")
        tree.files(x__do="exit 1\n")
        tree.check.same(f"{words}: fails", tree.run("redo", *words, "x").status, 1)
        tree.write("x", "by hand\n")
        run = tree.ifchange("x")
        tree.check.same(f"{words}: by hand", (run.err, tree.read("x")), (WARNING, "by hand\n"))
        tree.path("x").unlink()


def case_killed_in_the_middle(tree: Tree) -> None:
    """After a run that was killed in the middle of a build, nothing counts as edited."""
    script = "redo-ifchange y\ncat y >$3\n: >ready\nwhile [ ! -e go ]; do sleep 0.02; done\n"
    tree.files(x__do=script, y="AAAA\n", go="")
    tree.redo("x")
    for with_server in (False, True):
        tree.path("go").unlink()
        tree.path("ready").unlink()
        tree.write("y", f"BBBB {with_server}\n")
        run = tree.start("redo", "x")
        tree.until("the script runs", tree.path("ready").exists)
        run.send_signal(signal.SIGKILL)
        if with_server:
            os.kill(int(tree.read(".redo/server/lock")), signal.SIGKILL)
        run.communicate()
        tree.write("x", "what a build may have left\n")
        tree.write("go", "")
        tree.ifchange("x")
        tree.check.same(f"x ({with_server})", tree.read("x"), f"BBBB {with_server}\n")


def case_changed_in_place_by_another_script(tree: Tree) -> None:
    """A script that strips another target in place makes an edited one, of which runs warn."""
    tree.files(
        x__do="echo long text\n",
        z__do="redo-ifchange x\necho short >x\ncat x\n",
    )
    tree.redo("z")
    tree.check.has("warning", tree.ifchange("x").err, WARNING)


def case_log_that_was_rolled_back(tree: Tree) -> None:
    """Targets that an old log doesn't know as they are count as edited."""
    tree.files(x__do=COPY, y="AAAA\n", z__do="redo-ifchange y\ncat y\n")
    tree.redo("x")
    end_server(tree)
    old = tree.path(".redo/log").read_bytes()
    tree.write("y", "BBBB\n")
    tree.ifchange("x", "z")
    end_server(tree)
    tree.path(".redo/log").write_bytes(old)
    for _ in range(2):
        run = tree.ifchange("x", "z")
        for name in ("x", "z"):
            tree.check.has(name, run.err, f"redo: {name} was changed by hand")
    tree.check.same("listed", tree.run("redo-targets", "--edited").out, "x\nz\n")
    tree.write("y", "CCCC\n")
    tree.redo("--overwrite", "x", "z")
    tree.check.same("overwritten", (tree.read("x"), tree.read("z")), ("CCCC\n", "CCCC\n"))


def case_salvaged_log(tree: Tree) -> None:
    """That holds after --salvage, too."""
    tree.files(x__do=COPY, y="AAAA\n")
    tree.redo("x")
    end_server(tree)
    tree.write("y", "BBBB\n")
    tree.ifchange("x")
    end_server(tree)
    log = tree.path(".redo/log")
    log.write_bytes(b"start x => no".join(log.read_bytes().rsplit(b"start x => ok", 1)))
    words = [tree.live, "--log", str(log), "--salvage"]
    salvaged = subprocess.run(words, stdin=subprocess.DEVNULL, capture_output=True, check=False)
    tree.check.same("salvage", salvaged.returncode, 0)
    tree.check.has("warning", tree.ifchange("x").err, WARNING)
    tree.path("x").unlink()
    tree.ifchange("x")
    tree.check.same("x", tree.read("x"), "BBBB\n")
