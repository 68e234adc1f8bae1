"""Names, folders, disks and clocks that make trouble: an error, or the right build."""
import os
import re
import signal
import subprocess
from typing import Any, Callable

from trees import Skipped, Tree, end_server, needs, sleepers

NOBODY = 65534
COPY = 'echo ran >>ran\nredo-ifchange -- "$2.in"\ncat -- "$2.in"\n'


def case_word_that_is_a_file(tree: Tree) -> None:
    """A file whose name is a word of the log is no name that the next server takes from there."""
    tree.files(x__do="echo x\n")
    tree.write("=>", "a file\n")
    tree.redo("x")
    end_server(tree)
    tree.check.same("ood", tree.run("redo-ood").out, "")
    tree.check.true("the database has no such name", "%3D" not in tree.read(".redo/log"))


def case_names_with_spaces(tree: Tree) -> None:
    """Names may have spaces, tabs, quotes and newlines."""
    built_again(tree, "a name", "tab\tand\nnewline", "quote'\"s", "$dollar`\\back")


def case_names_of_other_bytes(tree: Tree) -> None:
    """Names may have letters of any language, and bytes that aren't UTF-8."""
    built_again(tree, "gr\u00fc\u00dfe", b"\xff\xfe", b"latin\xe4")


def case_names_that_are_words(tree: Tree) -> None:
    """Names may look like words of the database, like options, or like escapes."""
    built_again(tree, "#", "=>", "%41", "%", "ok", "-")
    tree.write("-e.do", "echo e\n")
    tree.redo("--", "-e")
    tree.check.same("-e", tree.read("-e"), "e\n")


def built_again(tree: Tree, *stems: str | bytes) -> None:
    """Checks that targets of these names are built again when their sources change."""
    tree.write("default.out.do", COPY)
    for count, stem in enumerate(stems):
        name = os.fsencode(stem)
        tree.write(name + b".in", "one\n")
        before = tree.count("ran")
        tree.ifchange("--", name + b".out")
        tree.ifchange("--", name + b".out")
        tree.check.same(
            f"{stem!r}: first",
            (tree.read(name + b".out"), tree.count("ran")),
            ("one\n", before + 1),
        )
        tree.write(name + b".in", "other\n")
        why = tree.run("redo-ood")
        tree.check.same(f"{stem!r}: out of date", os.fsencode(why.out), name + b".out\n")
        tree.ifchange("--", name + b".out")
        tree.check.same(
            f"{stem!r}: again",
            (tree.read(name + b".out"), tree.count("ran")),
            ("other\n", before + 2),
        )


def case_long_name(tree: Tree) -> None:
    """A path of more than 255 bytes is an error that says so."""
    tree.write("default.do", "echo text\n")
    run = tree.run("redo", "/".join(["d" * 60] * 5))
    tree.check.same("status", run.status, 1)
    tree.check.has("message", run.err, "255")


def case_deep_folder(tree: Tree) -> None:
    """The top of a tree may have a path that is longer than the name of a socket."""
    deep = "/".join(["folder-with-a-long-name"] * 8)
    tree.write(f"{deep}/a.do", "redo-ifchange b\ncat b\n")
    tree.write(f"{deep}/b.do", "echo b\n")
    tree.redo("a", folder=deep)
    tree.check.same("a", tree.read(f"{deep}/a"), "b\n")


def case_dots(tree: Tree) -> None:
    """`./x`, `d/../x` and `d//x` are the same file as x and d/x; `..` leads out of the tree."""
    tree.write("top/default.out.do", COPY)
    tree.write("top/x.in", "x\n")
    tree.write("top/d/y.in", "y\n")
    tree.write("outside", "one\n")
    tree.write("top/o.do", "redo-ifchange ../outside\ncat ../outside\n")
    for name in ("x.out", "./x.out", "d/../x.out", ".//x.out", str(tree.path("top/x.out"))):
        tree.ifchange(name, folder="top")
    tree.check.same("x.out", tree.count("top/ran"), 1)
    tree.redo("o", folder="top")
    tree.write("outside", "two\n")
    tree.ifchange("o", folder="top")
    tree.check.same("o", tree.read("top/o"), "two\n")


def case_link_to_a_folder(tree: Tree) -> None:
    """A file reached through a link to its folder is the same file."""
    tree.write("d/default.out.do", COPY)
    tree.write("d/x.in", "x\n")
    os.symlink("d", tree.path("link"))
    tree.ifchange("d/x.out")
    tree.ifchange("link/x.out")
    tree.ifchange("x.out", folder="link")
    tree.check.same("ran", tree.count("d/ran"), 1)


def case_link_as_source(tree: Tree) -> None:
    """A source that is a link has changed if it, or what it leads to, has."""
    tree.write("default.out.do", COPY)
    tree.files(a="one\n", b="two\n")
    os.symlink("a", tree.path("x.in"))
    tree.redo("x.out")
    tree.write("a", "other\n")
    tree.ifchange("x.out")
    tree.check.same("file", tree.read("x.out"), "other\n")
    tree.path("x.in").unlink()
    os.symlink("b", tree.path("x.in"))
    tree.ifchange("x.out")
    tree.check.same("link", (tree.read("x.out"), tree.count("ran")), ("two\n", 3))


def case_link_as_target(tree: Tree) -> None:
    """A target can be a link; it isn't written through."""
    tree.files(x__do='ln -s y "$3"\n', y="text\n")
    tree.redo("x")
    tree.check.same("x", os.readlink(tree.path("x")), "y")
    tree.files(x__do="echo made\n")
    tree.redo("x")
    tree.check.same(
        "x and y",
        (tree.path("x").is_symlink(), tree.read("x"), tree.read("y")),
        (False, "made\n", "text\n"),
    )


def case_dangling_link(tree: Tree) -> None:
    """A source that is a link to nothing is there; what it leads to may come later."""
    tree.files(x__do="echo ran >>ran\nredo-ifchange y\ncat y || true\n")
    os.symlink("z", tree.path("y"))
    tree.redo("x")
    tree.check.same("nothing", tree.ifchange("x").built, [])
    tree.write("z", "text\n")
    tree.ifchange("x")
    tree.check.same("x", tree.read("x"), "text\n")


def case_clock_that_jumps(tree: Tree) -> None:
    """No time of a file counts, be it far ahead or behind: only its content does."""
    tree.write("default.out.do", COPY)
    tree.write("x.in", "1\n")
    os.utime(tree.path("x.in"), (4e9, 4e9))
    tree.redo("x.out")
    for name in ("default.out.do", "x.in", "x.out"):
        for time in (4e9, 1):
            os.utime(tree.path(name), (time, time))
            tree.ifchange("x.out")
            tree.check.same(f"{name} of {time:.0f}", tree.count("ran"), 1)
    for number, time in enumerate((1, 4e9), 2):
        tree.write("x.in", f"{number}\n")
        os.utime(tree.path("x.in"), (time, time))
        tree.ifchange("x.out")
        tree.ifchange("x.out")
        tree.check.same("source", (tree.read("x.out"), tree.count("ran")), (f"{number}\n", number))
    tree.write("default.out.do", COPY + "echo more\n")
    os.utime(tree.path("default.out.do"), (1, 1))
    tree.ifchange("x.out")
    tree.ifchange("x.out")
    tree.check.same("script", (tree.read("x.out"), tree.count("ran")), ("3\nmore\n", 4))


def case_unwritable_folder(tree: Tree) -> None:
    """A target in a folder that isn't writable is an error, and so is such a top."""
    tree.write("d/x.do", "echo x\n")
    tree.redo("d/x")
    give_away(tree)
    os.chmod(tree.path("d"), 0o555)
    run = tree.run("redo", "d/x", **unprivileged())
    tree.check.same("status", run.status, 1)
    tree.check.true("message", re.search(r"d/x: x\.redo\.2\.out: Permission denied", run.err))
    tree.check.same("d/x", tree.read("d/x"), "x\n")
    run = tree.run("redo", "x", folder="d", **unprivileged())
    os.chmod(tree.path("d"), 0o755)
    tree.write("e/x.do", "echo x\n")
    os.chmod(tree.path("e"), 0o555)
    os.rename(tree.path(".redo"), tree.path("moved"))
    run = tree.run("redo", "x", folder="e", **unprivileged())
    os.chmod(tree.path("e"), 0o755)
    tree.check.same("top: status", run.status, 1)
    tree.check.has("top: message", run.err, "Permission denied")


def case_tree_of_another_user(tree: Tree) -> None:
    """Who trusts a tree, but may not enter the folder of its server, gets an error that says so."""
    if os.getuid() != 0:
        raise Skipped("only root can be two users")
    tree.files(x__do="echo x\n")
    tree.redo("x")
    os.chmod(tree.folder.parent, 0o755)
    for program in ("redo", "redo-ood"):
        run = tree.run(program, **unprivileged())
        tree.check.same(f"{program}: status", run.status, 1)
        tree.check.has(f"{program}: message", run.err, "/.redo belongs to user 0 (root), not to")
        run = tree.run(program, environment={"REDO_TRUST": "*"}, **unprivileged())
        tree.check.same(f"{program}: status", run.status, 1)
        tree.check.has(f"{program}: message", run.err, "can't be reached: Permission denied")


def give_away(tree: Tree) -> None:
    """Has a tree belong to nobody, if root runs the tests."""
    if os.getuid() == 0:
        end_server(tree)
        os.chmod(tree.folder.parent, 0o755)
        subprocess.run(["chown", "-R", str(NOBODY), tree.folder], check=True)


def unprivileged() -> dict[str, Any]:
    """Options for a program to run as nobody, if root runs the tests."""
    return {"user": NOBODY} if os.getuid() == 0 else {}


def case_full_disk(tree: Tree) -> None:
    """On a full disk the build fails, and nothing is left; with space again, it succeeds."""
    on_small_disk(tree, full_disk)


def case_full_disk_of_the_database(tree: Tree) -> None:
    """If the database can't write, the run ends with an error; with space again, it goes on."""
    on_small_disk(tree, full_database)


def case_full_disk_and_questions(tree: Tree) -> None:
    """A server that starts then, after one that was killed too, answers questions."""
    on_small_disk(tree, full_and_asked)


def on_small_disk(tree: Tree, case: Callable[[Tree], None], megabytes: int = 2) -> None:
    """Runs a case in whose tree the folder `disk` has so much room."""
    if os.getuid() != 0:
        raise Skipped("only root can mount a small disk")
    tree.path("disk").mkdir()
    mounted = subprocess.run(
        ["mount", "-t", "tmpfs", "-o", f"size={megabytes}m,mode=755", "tmpfs", tree.path("disk")],
        capture_output=True,
        check=False,
    )
    if mounted.returncode != 0:
        raise Skipped("no small disk can be mounted")
    try:
        case(tree)
    finally:
        subprocess.run(["umount", "-l", tree.path("disk")], check=True)


def full_disk(tree: Tree) -> None:
    tree.write("disk/x.do", "redo-ifchange size\nhead -c $(cat size) /dev/zero\n")
    tree.write("disk/size", "4000000\n")
    run = tree.run("redo", "x", folder="disk")
    tree.check.same("status", run.status, 1)
    tree.check.has("message", run.err, "No space left")
    tree.check.same("left over", tree.left_over(), [])
    tree.write("disk/size", "4\n")
    tree.redo("x", folder="disk")
    tree.check.same("x", tree.path("disk/x").stat().st_size, 4)


def full_database(tree: Tree) -> None:
    tree.write("disk/x.do", "redo-ifchange y\ncat y\n")
    tree.write("disk/y", "y\n")
    tree.redo("x", folder="disk")
    tree.write("disk/y", "other\n")
    fill = tree.run("dd", "if=/dev/zero", "of=disk/fill", "bs=4096")
    tree.check.has("fill", fill.err, "No space left")
    run = tree.run("redo", "x", folder="disk")
    tree.check.same("status", run.status, 1)
    tree.check.has("message", run.err, "No space left")
    tree.path("disk/fill").unlink()
    tree.redo("x", folder="disk")
    tree.check.same("x", tree.read("disk/x"), "other\n")
    tree.check.same("left over", tree.left_over(), [])


def full_and_asked(tree: Tree) -> None:
    tree.write("disk/x.do", "echo x\n")
    tree.redo("x", folder="disk")
    tree.run("dd", "if=/dev/zero", "of=disk/fill", "bs=4096")
    for number in (signal.SIGTERM, signal.SIGKILL):
        os.kill(int(tree.read("disk/.redo/server/lock")), number)
        end_server(tree, "disk")
        run = tree.run("redo-targets", folder="disk")
        tree.check.same(f"after {number}: targets", (run.status, run.out), (0, "x\n"))


def case_broken_tree(tree: Tree) -> None:
    """A damaged log of the database is an error that says so; no byte of it is changed."""
    tree.files(x__do="echo x\n")
    tree.redo("x")
    end_server(tree)
    log = tree.path(".redo/log")
    damaged = log.read_bytes().replace(b"start x => ok", b"start x => no")
    log.write_bytes(damaged)
    run = tree.run("redo", "x")
    tree.check.same("status", run.status, 1)
    tree.check.has("message", run.err, "differs")
    tree.check.same("log", log.read_bytes(), damaged)
    _, _, command = run.err.rstrip("\n").partition("after a copy of it all: ")
    tree.check.has("command", command, " --salvage ")
    tree.check.same("cut", tree.run("sh", "-c", command).status, 0)
    tree.check.same("copy", tree.path(".redo/log.damaged").read_bytes(), damaged)
    tree.check.same("out of date no more", tree.run("redo-why", "x").status, 0)


def case_lost_rule_folder(tree: Tree) -> None:
    """A folder that nobody needs any more may be removed with all that is in it."""
    tree.write("d/x.do", "echo x\n")
    tree.files(y__do="redo-ifchange d/x\ncat d/x\n")
    tree.redo("y")
    subprocess.run(["rm", "-r", tree.path("d")], check=True)
    tree.files(y__do="echo y\n")
    tree.ifchange("y")
    tree.check.same("y", tree.read("y"), "y\n")


def case_removed_state(tree: Tree) -> None:
    """Without .redo, the files of targets are sources; once they are removed, they are built."""
    tree.files(x__do="echo ran >>ran\necho x\n")
    tree.redo("x")
    end_server(tree)
    subprocess.run(["rm", "-r", tree.path(".redo")], check=True)
    tree.check.has("redo", tree.redo("x").err, "x is there, and no build made it")
    tree.path("x").unlink()
    tree.redo("x")
    tree.check.same("ran", tree.count("ran"), 2)


def case_state_made_anew(tree: Tree) -> None:
    """A server whose .redo was removed leaves no mark of its end in the one that was made since."""
    tree.files(x__do="echo x\n", y__do="echo y\n")
    tree.redo("x")
    lock = tree.path(".redo/server/lock")
    first = int(lock.read_text())
    subprocess.run(["rm", "-r", tree.path(".redo")], check=True)
    tree.redo("y")
    os.kill(first, signal.SIGTERM)
    tree.until("the first server ends", lambda: first not in sleepers(tree, True))
    tree.check.true("another server is there", int(lock.read_text()) in sleepers(tree, True))
    tree.check.true("no mark", not tree.path(".redo/clean").exists())


def case_moved_tree(tree: Tree) -> None:
    """A tree may be moved: nothing is out of date by that."""
    tree.write("old/default.out.do", COPY)
    tree.write("old/x.in", "x\n")
    tree.redo("x.out", folder="old")
    os.rename(tree.path("old"), tree.path("new"))
    tree.check.same("nothing", tree.ifchange("x.out", folder="new").built, [])
    tree.write("new/x.in", "other\n")
    tree.ifchange("x.out", folder="new")
    tree.check.same("x.out", tree.read("new/x.out"), "other\n")


def case_too_many_names(tree: Tree) -> None:
    """A name that the database doesn't take is an error that says so; what was known stays."""
    tree.files(x__do="echo x\n", y__do="echo y\n")
    tree.redo("x")
    end_server(tree)
    answer = "s/^\\([0-9]*\\) lock y => .*/\\1 fault too-many-names/"
    tree.write("database", f"#!/bin/sh\n'{tree.live}' \"$@\" | sed -u '{answer}'\n")
    tree.path("database").chmod(0o755)
    tree.live = str(tree.path("database"))
    run = tree.run("redo", "y")
    tree.check.same("status", run.status, 1)
    tree.check.has("message", run.err, "too-many-names")
    tree.check.same("left over", tree.left_over(), [])
    tree.check.same("x", tree.ifchange("x").built, [])
