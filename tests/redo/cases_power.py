"""A machine that loses its power may lose the end of the log, and keep what was built after it."""
import contextlib
import os
import shutil
import signal
import subprocess
from typing import Iterator

from trees import Skipped, Tree, end_server, needs

SCRIPTS = {"x.do": "redo-ifchange src\ncat src\n", "y.do": "redo-ifchange x\ncat x\n"}


def write_scripts(tree: Tree, folder: str) -> None:
    """Writes a tree of two targets, one from the other."""
    for name, script in SCRIPTS.items():
        tree.write(f"{folder}/{name}", script)
    tree.write(f"{folder}/src", "AAAA\n")


def kill_server(tree: Tree, folder: str) -> None:
    """Kills the server of a folder, and waits until its database has ended."""
    os.kill(int(tree.read(f"{folder}/.redo/server/lock")), signal.SIGKILL)
    log = str(tree.path(f"{folder}/.redo/log"))
    words = [tree.live, "--log", log]

    def is_free() -> bool:
        run = subprocess.run(words, stdin=subprocess.DEVNULL, capture_output=True, check=False)
        return run.returncode == 0

    tree.until("redodb-live ends", is_free)


def follows(tree: Tree, what: str, folder: str) -> None:
    """Checks that y follows its source twice: once after what happened, and from then on."""
    for text in ("CCCC\n", "DDDD\n"):
        tree.write(f"{folder}/src", text)
        run = tree.ifchange("y", folder=folder)
        tree.check.same(
            f"{what}: {text!r}", (tree.read(f"{folder}/y"), run.err.count("hand")), (text, 0)
        )


def case_lost_tail(tree: Tree) -> None:
    """Whatever end the log has lost, targets are built again, and none is frozen."""
    write_scripts(tree, "old")
    tree.redo("y", folder="old")
    end_server(tree, "old")
    kept = len(tree.path("old/.redo/log").read_bytes())
    tree.write("old/src", "BBBB\n")
    tree.ifchange("y", folder="old")
    kill_server(tree, "old")
    log = tree.path("old/.redo/log").read_bytes()
    ends = [place + 1 for place in range(kept - 1, len(log)) if log[place] == 10]
    for number, end in enumerate(ends):
        copy = f"copy{number}"
        shutil.copytree(tree.path("old"), tree.path(copy), ignore=shutil.ignore_patterns("socket"))
        tree.path(f"{copy}/.redo/log").write_bytes(log[:end])
        follows(tree, f"cut behind {log[:end].splitlines()[-1]!r}", copy)


def case_lost_first_build(tree: Tree) -> None:
    """That holds if the log has lost the first build, and knows nothing of the targets."""
    tree.write("old/a.do", "echo a\n")
    tree.redo("a", folder="old")
    end_server(tree, "old")
    kept = tree.path("old/.redo/log").read_bytes()
    write_scripts(tree, "old")
    tree.redo("--no-log", "y", folder="old")
    tree.redo("x", folder="old")
    kill_server(tree, "old")
    shutil.copytree(tree.path("old"), tree.path("copy"), ignore=shutil.ignore_patterns("socket"))
    tree.path("copy/.redo/log").write_bytes(kept)
    follows(tree, "x was logged", "copy")


def case_edited_before_the_power_failed(tree: Tree) -> None:
    """A target that was edited, and of which the log knows that, stays as it is."""
    write_scripts(tree, "old")
    tree.redo("y", folder="old")
    tree.write("old/x", "by hand\n")
    tree.ifchange("y", folder="old")
    kill_server(tree, "old")
    shutil.copytree(tree.path("old"), tree.path("copy"), ignore=shutil.ignore_patterns("socket"))
    run = tree.ifchange("y", folder="copy")
    tree.check.has("warning", run.err, "x was changed by hand")
    tree.check.same("x", tree.read("copy/x"), "by hand\n")


def case_killed_server(tree: Tree) -> None:
    """A server that was killed has lost nothing: what was edited then was edited by hand."""
    write_scripts(tree, "old")
    tree.redo("y", folder="old")
    kill_server(tree, "old")
    tree.write("old/x", "by hand\n")
    tree.check.has("warning", tree.ifchange("y", folder="old").err, "x was changed by hand")
    tree.check.same("x", tree.read("old/x"), "by hand\n")


def case_power_failure_on_ext4(tree: Tree) -> None:
    """The device is copied while it is mounted, some seconds after a build."""
    power_fails(tree, "64M", "mkfs.ext4 -q -F", "loop")


def case_power_failure_on_xfs(tree: Tree) -> None:
    """XFS writes the names of files long before what is in them."""
    power_fails(tree, "320M", "mkfs.xfs -q -f", "loop,nouuid")


def power_fails(tree: Tree, size: str, maker: str, options: str) -> None:
    """Checks that redo goes on with what the disk has at moments after a build."""
    needs(maker.split()[0])
    tree.run("sh", "-c", f"truncate -s {size} disk && {maker} disk")
    with mounted(tree, "disk", "loop"):
        for seconds in (0.2, 1.5, 6.0):
            folder = f"disk.at/{seconds}"
            write_scripts(tree, folder)
            tree.redo("y", folder=folder)
            end_server(tree, folder)
            tree.run("sync", "-f", folder)
            tree.write(f"{folder}/src", "BBBB\n")
            tree.ifchange("y", folder=folder)
            tree.run("sleep", str(seconds))
            tree.run("cp", "--sparse=always", "disk", "copy")
            with mounted(tree, "copy", options):
                follows(tree, f"{seconds} s after the build", f"copy.at/{seconds}")
                end_server(tree, f"copy.at/{seconds}")
            end_server(tree, folder)


@contextlib.contextmanager
def mounted(tree: Tree, image: str, options: str) -> Iterator[None]:
    """Has an image mounted as the folder IMAGE.at."""
    if os.getuid() != 0:
        raise Skipped("only root can mount a disk")
    tree.path(f"{image}.at").mkdir(exist_ok=True)
    words = ["mount", "-o", options, tree.path(image), tree.path(f"{image}.at")]
    if subprocess.run(words, capture_output=True, check=False).returncode != 0:
        raise Skipped("no loop device")
    try:
        yield
    finally:
        subprocess.run(["umount", "-l", tree.path(f"{image}.at")], check=True)
