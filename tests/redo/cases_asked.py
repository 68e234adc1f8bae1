"""The programs that ask and build nothing, and redo-why."""
import json
import os
import re
import shutil
import signal
from textwrap import dedent

from trees import TOP, Tree, end_server, ended, needs


def program_of_two(tree: Tree) -> None:
    """Writes and builds a tree of an app, an object and a header."""
    tree.files(
        app__do="redo-ifchange util.o\ncat util.o\n",
        util__o__do="redo-ifchange util.c util.h\ncat util.[ch]\n",
        util__c="c\n",
        util__h="h\n",
    )
    tree.redo("app")


def case_ood(tree: Tree) -> None:
    """redo-ood prints the targets that are there and out of date, and builds nothing."""
    program_of_two(tree)
    tree.check.same("nothing", tree.run("redo-ood").out, "")
    tree.write("util.h", "new\n")
    tree.check.same("edited", tree.run("redo-ood").out, "app\nutil.o\n")
    tree.path("util.o").unlink()
    tree.check.same("gone", tree.run("redo-ood").out, "app\n")
    tree.check.same("app", tree.read("app"), "c\nh\n")


def case_ood_always(tree: Tree) -> None:
    """redo-ood counts what is built in each run."""
    tree.files(a__do="redo-always\necho a\n", b__do="redo-ifchange a\necho b\n", c__do="echo c\n")
    tree.redo("b", "c")
    tree.check.same("out of date", tree.run("redo-ood").out, "a\nb\n")


def case_targets_and_sources(tree: Tree) -> None:
    """redo-targets prints targets that are there, redo-sources files that they depend on."""
    program_of_two(tree)
    tree.check.same("targets", tree.run("redo-targets").out, "app\nutil.o\n")
    tree.check.same("sources", tree.run("redo-sources").out, "app.do\nutil.c\nutil.h\nutil.o.do\n")
    tree.path("util.o").unlink()
    tree.path("util.c").unlink()
    tree.check.same("targets", tree.run("redo-targets").out, "app\n")
    tree.check.same("sources", tree.run("redo-sources").out, "app.do\nutil.h\nutil.o.do\n")


def case_lists_in_a_folder(tree: Tree) -> None:
    """The lists have the paths from the working folder."""
    program_of_two(tree)
    tree.path("d").mkdir()
    tree.check.same("targets", tree.run("redo-targets", folder="d").out, "../app\n../util.o\n")


def case_lists_of_nothing(tree: Tree) -> None:
    """If nothing was built, the lists are empty."""
    for program in ("redo-ood", "redo-targets", "redo-sources"):
        run = tree.run(program)
        tree.check.same(program, (run.status, run.out, run.err), (0, "", ""))
    tree.check.same("started", list(tree.folder.iterdir()), [])


def case_whichdo(tree: Tree) -> None:
    """redo-whichdo prints .do files as they are looked for, up to the one that is there."""
    tree.path("a/b").mkdir(parents=True)
    tree.write("a/default.y.do", ":\n")
    run = tree.run("redo-whichdo", "a/b/c.x.y")
    wanted = [
        "a/b/c.x.y.do",
        "a/b/default.x.y.do",
        "a/b/default.y.do",
        "a/b/default.do",
        "a/default.x.y.do",
        "a/default.y.do",
    ]
    tree.check.same("found", (run.status, run.out.splitlines()), (0, wanted))
    run = tree.run("redo-whichdo", "b/c.x.y", folder="a")
    tree.check.same("from a folder", run.out.splitlines()[:2], ["b/c.x.y.do", "b/default.x.y.do"])


def case_whichdo_of_nothing(tree: Tree) -> None:
    """If none is there, it prints all up to the folder `/`, with status 1."""
    run = tree.run("redo-whichdo", "/a/b/c.x.y", folder="../../..")
    wanted = [
        "a/b/c.x.y.do",
        "a/b/default.x.y.do",
        "a/b/default.y.do",
        "a/b/default.do",
        "a/default.x.y.do",
        "a/default.y.do",
        "a/default.do",
        "default.x.y.do",
        "default.y.do",
        "default.do",
    ]
    depth = len(tree.folder.resolve().parts) - 1 - 3
    tree.check.same(
        "all", (run.status, run.out.splitlines()), (1, ["../" * depth + path for path in wanted])
    )
    tree.check.same("no name", tree.run("redo-whichdo", "").status, 2)


def case_whichdo_without_a_server(tree: Tree) -> None:
    """redo-whichdo asks no server, and starts none: it is about files alone."""
    tree.files(x__do="echo x\n")
    tree.redo("x")
    server = int(tree.read(".redo/server/lock"))
    os.kill(server, signal.SIGSTOP)
    try:
        run = tree.start("redo-whichdo", "x", environment={"REDO_PATIENCE": "0.1"})
        told = ended(run)
    finally:
        os.kill(server, signal.SIGCONT)
    tree.check.same("stopped", (told.status, told.out, told.err), (0, "x.do\n", ""))
    end_server(tree)
    told = tree.run("redo-whichdo", "x", environment={"REDODB_LIVE": "/nonexistent"})
    tree.check.same("ended", (told.status, told.out, told.err), (0, "x.do\n", ""))
    tree.check.same("started", tree.path(".redo/server/socket").exists(), False)


def why(tree: Tree, *words: str) -> str:
    """What redo-why prints."""
    run = tree.run("redo-why", *words)
    tree.check.same(f"redo-why {words}: status", (run.status, run.err), (0, ""))
    return run.out


def case_why_changed(tree: Tree) -> None:
    """redo-why prints a shortest chain to what changed."""
    program_of_two(tree)
    tree.check.same("nothing", why(tree, "app"), "app is up to date\n")
    tree.write("util.h", "new\n")
    tree.check.same("header", why(tree, "app"), "app <- util.o <- util.h changed\n")
    tree.check.same("object", why(tree, "util.o"), "util.o <- util.h changed\n")
    tree.check.same("source", why(tree, "util.h"), "util.h is a source\n")
    tree.check.same("unknown", why(tree, "nothing"), "nothing is no target yet\n")


def case_why_other_reasons(tree: Tree) -> None:
    """redo-why names the other reasons, too."""
    tree.files(
        a__do="redo-ifcreate b\necho a\n",
        c__do="redo-always\necho c\n",
        d__do="redo-ifchange c\necho d\n",
        e__do="exit 1\n",
        f__do="redo-ifchange e || echo f\n",
        g__do="echo g\n",
    )
    tree.redo("a", "d", "f", "g")
    tree.write("b", "")
    tree.check.same("appeared", why(tree, "a"), "a <- b appeared\n")
    tree.check.same("always", why(tree, "d"), "d <- c always\n")
    tree.check.same("failed", why(tree, "e"), "e failed\n")
    tree.write("g", "by hand\n")
    tree.check.same("edited", why(tree, "g"), "g edited\n")


def case_why_gone(tree: Tree) -> None:
    """redo-why calls a target gone that was built and has no file, also at the end of a chain."""
    program_of_two(tree)
    tree.path("util.o").unlink()
    tree.check.same("both", why(tree, "app", "util.o"), "app <- util.o gone\nutil.o gone\n")
    wanted = {"target": "app", "reason": "gone", "chain": ["app", "util.o"]}
    tree.check.same("object", json.loads(why(tree, "--json", "app")), wanted)
    tree.ifchange("app")
    tree.write("util.o", "by hand\n")
    tree.check.same("edited", why(tree, "app"), "app <- util.o edited\n")


def case_why_building(tree: Tree) -> None:
    """While a target is built, that is the reason."""
    tree.files(x__do=": >began\nwhile ! [ -e go ]; do sleep 0.01; done\n")
    process = tree.start("redo", "x")
    tree.until("began", tree.path("began").exists)
    tree.check.same("building", why(tree, "x"), "x building\n")
    tree.write("go", "")
    tree.check.same("status", ended(process).status, 0)


def case_why_json(tree: Tree) -> None:
    """With --json it prints an object a line, which has the same as data."""
    program_of_two(tree)
    tree.write("util.h", "new\n")
    objects = [json.loads(line) for line in why(tree, "--json", "app", "util.c").splitlines()]
    wanted = [
        {"target": "app", "reason": "changed", "chain": ["app", "util.o", "util.h"]},
        {"target": "util.c", "reason": "a source", "chain": ["util.c"]},
    ]
    tree.check.same("objects", objects, wanted)


def copy_hello(tree: Tree) -> None:
    """Copies examples/hello into the tree."""
    needs("cc")
    for path in sorted((TOP / "examples/hello").glob("*.*")):
        if path.suffix in (".do", ".c", ".h"):
            shutil.copy(path, tree.folder)
    tree.check.same("three .do files", len(list(tree.folder.glob("*.do"))), 3)


def case_hello(tree: Tree) -> None:
    """examples/hello is built, and again after an edit of its header, which redo-why names."""
    copy_hello(tree)
    tree.check.same("built", tree.redo().err, "redo  all\nredo    hello\nredo      hello.o\n")
    tree.check.same("hello", tree.run("./hello").out, "hello, world\n")
    tree.write("greeting.h", '#define GREETING "hello again"\n')
    tree.check.same("why", why(tree, "hello"), "hello <- hello.o <- greeting.h changed\n")
    tree.redo()
    tree.check.same("hello", tree.run("./hello").out, "hello again\n")


def case_readme(tree: Tree) -> None:
    """The commands of README.md that build a tree print what it says, in an empty folder."""
    needs("cc")
    section = (TOP / "README.md").read_text().partition("\n## Build\n")[2].partition("\n## ")[0]
    blocks = [dedent(block) for block in re.findall("(?:    .*\n)+", section)]
    tree.check.same("commands and what they print", len(blocks), 6)
    for commands, printed in zip(blocks[::2], blocks[1::2]):
        run = tree.run("sh", "-ec", commands)
        last = commands.splitlines()[-1]
        tree.check.same(last, (run.status, run.out + run.err), (0, printed))
    tree.check.same("hello", tree.run("./hello").out, "good morning\n")


def case_users(tree: Tree) -> None:
    """redo-why --users prints what depends on a name, of the latest builds, and builds nothing."""
    program_of_two(tree)
    tree.files(default__x__do='redo-ifcreate util.p\nredo-ifchange util.h\necho "$1"\n')
    tree.path("d").mkdir()
    tree.redo("d/one.x", "two.x")
    users = tree.run("redo-why", "--users", "util.h")
    built = [f"{name} is built from util.h" for name in ("d/one.x", "two.x", "util.o")]
    tree.check.same("header", (users.status, users.out.splitlines()), (0, built))
    users = tree.run("redo-why", "../util.p", "--users", "../app", folder="d")
    lines = [f"../util.p must not exist for {name}" for name in ("one.x", "../two.x")]
    lines.append("no target depends on ../app")
    tree.check.same("absent, and none", users.out.splitlines(), lines)
    rule = tree.run("redo-why", "--users", "default.x.do").out.splitlines()
    built = [f"{name} is built from default.x.do" for name in ("d/one.x", "two.x")]
    tree.check.same("rule", rule, built)
    absent = tree.run("redo-why", "--users", "two.x.do").out
    tree.check.same("a rule that would win", absent, "two.x.do must not exist for two.x\n")
    tree.check.same("no name", tree.run("redo-why", "--users").status, 2)


def case_users_as_objects(tree: Tree) -> None:
    """redo-why --users --json prints an object for each name."""
    program_of_two(tree)
    lines = tree.run("redo-why", "--users", "--json", "util.o", "app.do", "default.do").out
    objects = [json.loads(line) for line in lines.splitlines()]
    wanted = [
        {"name": "util.o", "built": ["app"], "absent": []},
        {"name": "app.do", "built": ["app"], "absent": []},
        {"name": "default.do", "built": [], "absent": []},
    ]
    tree.check.same("objects", objects, wanted)


def case_users_of_an_edited_target(tree: Tree) -> None:
    """What is built from an edited target depends on it still, before and after a restart."""
    program_of_two(tree)
    tree.write("util.o", "by hand\n")
    tree.ifchange("app")
    for _ in range(2):
        users = tree.run("redo-why", "--users", "util.o").out
        tree.check.same("util.o", users, "app is built from util.o\n")
        end_server(tree)
    tree.files(app__do="echo app\n")
    tree.ifchange("app")
    users = tree.run("redo-why", "--users", "util.o").out
    tree.check.same("no more", users, "no target depends on util.o\n")
