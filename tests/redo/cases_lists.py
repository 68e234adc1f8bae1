"""The lists of the database, of logs that were made by hand: names that no path has."""
import subprocess

from trees import Tree, sleepers

BAD = ("%00", "%2", "%41", "%zz")
"""Names of the database that no path has: a NUL, digits that are missing, and no need for a %."""


def ask(tree: Tree, *commands: str) -> list[str]:
    """Has the database do commands, and keep them in the log of the tree; returns the answers."""
    tree.path(".redo").mkdir(exist_ok=True)
    tree.until("the server ends", lambda: not sleepers(tree, True))
    run = subprocess.run(
        [tree.live, "--log", ".redo/log"],
        cwd=tree.folder,
        input="".join(f"1 {command}\n" for command in commands).encode(),
        stdout=subprocess.PIPE,
        check=True,
    )
    return [line.partition(" => ")[2] for line in run.stdout.decode().splitlines()[1:]]


def built(name: str, *inputs: str) -> list[str]:
    """The commands of the build of a target."""
    depends = [f"ifchange {name} {' '.join(inputs)}"] if inputs else []
    return [f"lock {name}", f"start {name}", *depends, f"done {name} 1", f"unlock {name}"]


def case_names_of_no_path(tree: Tree) -> None:
    """The lists have such a name as it is in the database, also those of a folder."""
    sources = [f"{name}.c" for name in BAD]
    files = [f"file {name} 1" for name in sources]
    ask(tree, *files, *(line for name in BAD for line in built(name, *sources)))
    tree.path("d").mkdir()
    for folder in (".", "d"):
        for program, wanted in (
            ("redo-targets", sorted(BAD)),
            ("redo-sources", sorted(sources)),
            ("redo-ood", []),
        ):
            run = tree.run(program, folder=folder)
            tree.check.same(f"{program} in {folder}: errors", (run.status, run.err), (0, ""))
            tree.check.same(f"{program} in {folder}", sorted(run.out.splitlines()), wanted)


def case_why_by_a_name_of_no_path(tree: Tree) -> None:
    """redo-ood, redo-why and redo-log print such a name as it is in the database."""
    tree.files(default__do="echo text\n")
    tree.redo("a", "b", "c")
    stamp = ask(tree, "state a")[0].rpartition(" ")[2]
    begin, end = ["lock a", "start a"], [f"done a {stamp}", "unlock a"]
    ask(tree, "file %00 1", *begin, "ifchange a %00", *end, "file %00 2")
    run = tree.run("redo-ood")
    tree.check.same("out of date", (run.status, run.out, run.err), (0, "a\n", ""))
    run = tree.run("redo-why", "a")
    tree.check.same("changed", (run.status, run.out, run.err), (0, "a <- %00 changed\n", ""))
    run = tree.run("redo-why", "--json", "a")
    tree.check.has("changed, as an object", run.out, '["a", "%00"]')
    failed = ["lock %2", "start %2", "failed %2", "unlock %2"]
    ask(tree, *failed, *begin, "ifchange a %2", *end)
    run = tree.run("redo-why", "a")
    tree.check.same("failed", (run.status, run.out, run.err), (0, "a <- %2 failed\n", ""))


def case_log_of_a_name_of_no_path(tree: Tree) -> None:
    """redo-log prints such a name as it is in the log."""
    tree.files(a__do="echo text\n")
    tree.redo("a")
    (log,) = tree.path(".redo/logs").iterdir()
    key = log.read_bytes().partition(b"\n")[0].split(b" ")[3:]
    mark = b"\x1e" + b"".join(word + b" " for word in key)
    with log.open("ab") as file:
        file.write(mark + b"redo %00\n" + mark + b"redo //edited/a\nmore\n")
    run = tree.run("redo-log", "a")
    tree.check.same("status", (run.status, run.err), (0, ""))
    tree.check.same("log", run.lines or run.out, "redo  a\nredo    %00\nredo    //edited/a\nmore\n")


def case_names_of_the_server(tree: Tree) -> None:
    """Names that begin with `//` are the server's own: no list has them."""
    own = ["//always", "//edited/a", "//left/a", "//"]
    files = [f"file {name} 1" for name in own]
    ask(tree, *files, *built("%2", *own), *built("//other", "%2"))
    tree.path("d").mkdir()
    for folder in (".", "d"):
        for program, wanted in (("redo-targets", "%2\n"), ("redo-sources", "")):
            run = tree.run(program, folder=folder)
            tree.check.same(f"{program} in {folder}", (run.status, run.out), (0, wanted))


def case_lists_with_nul(tree: Tree) -> None:
    """With -0, the lists end each name by a NUL."""
    tree.write("sou rce", "")
    tree.files(default__do="redo-ifchange 'sou rce'\necho text\n")
    tree.redo("two\nlines", "plain")
    tree.write("sou rce", "changed\n")
    tree.check.same("targets", tree.run("redo-targets", "-0").out, "plain\0two\nlines\0")
    tree.check.same("out of date", tree.run("redo-ood", "-0").out, "plain\0two\nlines\0")
    run = tree.run("redo-sources", "-0")
    tree.check.true(run.out, "sou rce\0" in run.out and "\n" not in run.out)
    tree.check.same("no argument", tree.run("redo-targets", "-0", "plain").status, 2)
