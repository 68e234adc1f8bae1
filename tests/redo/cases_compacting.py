"""A start of the server may compact the log: nothing is built for that, whatever is killed then."""
import contextlib
import os
import signal
import socket
import subprocess
import time
from dataclasses import dataclass, replace
from functools import partial
from pathlib import Path

from cases_hostile import on_small_disk
from cases_power import mounted
from trees import Skipped, Tree, end_server, needs

LEAST = 4 << 20
"""No log whose lines have fewer bytes is compacted."""
NEW_HEADER = b"redodb-log 2\n"
LINE = "1 file often {} => ok\n"
WARNING = "x was changed by hand"
LOG = ".redo/log"
CLEAN = ".redo/clean"
RUNNING = ".redo/server/running"
LEFT_OVER = (".redo/log.new", ".redo/server/compacting", ".redo/server/compacting.new")

STRACE = ("strace", "-qq", "-o", "/dev/null", "-e")
KILL = "signal=SIGKILL:when={}"
SLOW = "delay_enter=700000"
SERVER_CALLS = ("renameat", "unlinkat", "fsync", "ftruncate", "write", "clone,clone3,vfork")
DATABASE_CALLS = ("flock", "fchmod", "ftruncate", "fsync", "rename", "write")
DATABASE = """#!/bin/sh
{before} '{live}' "$@"
status=$?
if [ "$status" -gt 128 ] && [ -n "{is_server_killed}" ]; then kill -KILL "$PPID"; fi
exit "$status"
"""


@dataclass(frozen=True)
class Long:
    """A tree of two targets, of which x was edited. Its log ends with very many lines."""

    tree: Tree
    log: bytes
    lines: bytes
    boot: str

    def leave(self, is_killed: bool) -> None:
        """Has the tree be as a server left it that was killed, or has ended in order."""
        tree = self.tree
        end_server(tree)
        for name in LEFT_OVER:
            tree.path(name).unlink(missing_ok=True)
        tree.path(LOG).write_bytes(self.log)
        tree.path(CLEAN).unlink(missing_ok=True)
        if is_killed:
            log = tree.path(LOG).stat()
            tree.write(RUNNING, f"{self.boot} {log.st_dev} {log.st_ino}\n")
        else:
            tree.write(CLEAN, f"{len(self.log)}\n")
            tree.write(RUNNING, "another-boot 1 2\n")

    def stands(self, what: str) -> None:
        """Checks that nothing is built, and that the log is compacted in the end."""
        tree, check = self.tree, self.tree.check
        run = tree.ifchange("x", "y")
        check.same(f"{what}: built", (run.built, tree.read("x")), ([], "by hand\n"))
        check.has(f"{what}: warning", run.err, WARNING)
        edited = tree.run("redo-targets", "--edited").out
        check.same(f"{what}: edited", edited, "x\n")
        end_server(tree)
        log = tree.path(LOG).read_bytes()
        check.same(f"{what}: compacted", log[: len(NEW_HEADER)], NEW_HEADER)
        check.true(f"{what}: {len(log)} bytes", len(log) < LEAST / 2)
        check.same(f"{what}: left", [name for name in LEFT_OVER if tree.path(name).exists()], [])


def long_tree(tree: Tree) -> Long:
    """Builds a tree whose log is long enough to be compacted. A file that no build made has a log
    of a build: only if the database's log is taken for another one does that count."""
    compacts(tree)
    tree.files(x__do="redo-ifchange src\ncat src\n", y__do="redo-ifchange src\necho y\n")
    tree.files(src="1\n", other="1\n")
    tree.redo("x", "y")
    boot = tree.read(RUNNING).rsplit(" ", 2)[0]
    end_server(tree)
    tree.write(".redo/logs/other", "\x1etarget other 1\n")
    tree.write("x", "by hand\n")
    pair = (LINE.format(0) + LINE.format(1)).encode()
    lines = pair * (LEAST // len(pair) + 1)
    return Long(tree, tree.path(LOG).read_bytes() + lines, lines, boot)


def compacts(tree: Tree) -> None:
    """Skips a case if the database compacts no log, as the stand-in."""
    words = [tree.live, "--log", str(tree.path("empty")), "--compact"]
    run = subprocess.run(words, stdin=subprocess.DEVNULL, capture_output=True, check=False)
    if run.returncode != 0:
        raise Skipped("the database compacts no log")


def case_compacted_log(tree: Tree) -> None:
    """Targets are up to date after it, an edited one is one still, and builds go on."""
    long = long_tree(tree)
    for is_killed in (False, True):
        long.leave(is_killed)
        long.stands(f"killed before: {is_killed}")
        long.stands("once more")
    tree.write("src", "2\n")
    run = tree.ifchange("x", "y")
    tree.check.same("built", (run.built, tree.read("x")), (["y"], "by hand\n"))
    tree.path("x").unlink()
    tree.check.same("x is built", tree.ifchange("x", "y").built, ["x"])
    tree.check.same("x", tree.read("x"), "2\n")


def case_log_that_grows_between_servers(tree: Tree) -> None:
    """A start compacts a log that has grown again since, and one that hasn't it leaves."""
    long = long_tree(tree)
    long.leave(is_killed=False)
    for _ in range(3):
        long.stands("grown")
        log = tree.path(LOG)
        before = log.stat().st_ino
        long.stands("as it was")
        tree.check.same("the same file", log.stat().st_ino, before)
        with log.open("ab") as file:
            file.write(long.lines)
        tree.write(CLEAN, f"{log.stat().st_size}\n")


def case_power_fails_after_compacting(tree: Tree) -> None:
    """The device is copied while it is mounted, when the log is compacted and nothing else."""
    needs("mkfs.ext4")
    tree.run("sh", "-c", "truncate -s 64M disk && mkfs.ext4 -q -F disk")
    with mounted(tree, "disk", "loop"):
        disk = Tree(tree.path("disk.at/tree"), tree.check, tree.live)
        disk.folder.mkdir()
        long = long_tree(disk)
        for number in range(3):
            long.leave(is_killed=False)
            tree.run("sync", "-f", "disk.at")
            compact_and_kill(disk)
            tree.run("cp", "--sparse=always", "disk", "copy")
            with mounted(tree, "copy", "loop"):
                copy = Tree(tree.path("copy.at/tree"), tree.check, tree.live)
                replace(long, tree=copy).stands(f"copy {number}")
            long.stands(f"the disk itself {number}")


def case_database_that_fails_after_a_mark(tree: Tree) -> None:
    """A database that can't start, before it compacts the log or then, costs nothing either."""
    long = long_tree(tree)
    for compacting in ("", f"'{tree.live}' \"$@\" </dev/null >/dev/null\n"):
        write_program(tree, f"#!/bin/sh\n{compacting}echo 'redodb-live: memory' >&2\nexit 2\n")
        for is_killed in (False, True):
            long.leave(is_killed)
            what = f"{compacting!r}, killed before: {is_killed}"
            run = tree.run("redo-ood", environment={"REDODB_LIVE": str(tree.path("database"))})
            tree.check.has(what, run.err, "memory")
            long.stands(what)


def case_full_disk_and_a_long_log(tree: Tree) -> None:
    """With less room than the mark needs, or the new log, the log stays, and all else goes on."""
    on_small_disk(tree, full_and_long, 6)


def full_and_long(tree: Tree) -> None:
    disk = Tree(tree.path("disk"), tree.check, tree.live)
    long = long_tree(disk)
    for pages in range(4):
        for is_killed in (False, True):
            long.leave(is_killed)
            disk.run("dd", "if=/dev/zero", "of=fill", "bs=4096")
            fill = disk.path("fill")
            os.truncate(fill, fill.stat().st_size - 4096 * pages)
            run = disk.run("redo-targets")
            what = f"{pages} pages are left, killed before: {is_killed}"
            tree.check.same(what, (run.status, run.out), (0, "x\ny\n"))
            end_server(disk)
            fill.unlink()
            long.stands(what)


def case_replaced_log_after_a_kill(tree: Tree) -> None:
    """A log that takes the place of the one that was just compacted is found to be another one."""
    long = long_tree(tree)
    tree.write("backup", "")
    for is_killed in (False, True):
        long.leave(is_killed)
        compact_and_kill(tree)
        backup = tree.path("backup")
        backup.write_bytes(tree.path(LOG).read_bytes())
        backup.rename(tree.path(LOG))
        if is_killed:
            built = tree.ifchange("x", "y").built
            tree.check.same("as after a loss of power", built, ["x"])
        else:
            tree.ifchange("x", "y")
            edited = tree.run("redo-targets", "--edited").out
            tree.check.same("another log", edited, "other\nx\n")
        tree.files(x="by hand\n", backup="")


def case_damaged_dump(tree: Tree) -> None:
    """Nothing of it can be kept: the message has the command to begin without it, which works."""
    long = long_tree(tree)
    long.leave(is_killed=False)
    long.stands("compacted")
    log = tree.path(LOG)
    damaged = log.read_bytes().replace(b"built", b"idle", 1)
    log.write_bytes(damaged)
    run = tree.run("redo-ifchange", "y")
    tree.check.same("status", run.status, 1)
    tree.check.has("message", run.err, ": no state; to begin without it: mv ")
    tree.check.same("log", log.read_bytes(), damaged)
    _, _, command = run.err.rstrip("\n").partition("to begin without it: ")
    tree.check.same("moved away", tree.run("sh", "-c", command).status, 0)
    tree.check.same("kept", tree.path(f"{LOG}.lost").read_bytes(), damaged)
    run = tree.ifchange("y")
    tree.check.same("nothing is overwritten", (run.built, tree.read("y")), ([], "y\n"))
    tree.check.same("edited", tree.run("redo-targets", "--edited").out, "other\nx\ny\n")


def case_compacting_server_is_killed(tree: Tree) -> None:
    """The server is killed at each call that changes files, and once it has started."""
    needs("strace")
    long = long_tree(tree)
    for calls in SERVER_CALLS:
        for is_killed in (False, True):
            kill_at_each(long, is_killed, calls, partial(kill_server, tree, calls))


def case_compacting_database_is_killed(tree: Tree) -> None:
    """So is the database, alone or with the server."""
    needs("strace")
    long = long_tree(tree)
    for calls in DATABASE_CALLS:
        for is_killed in (False, True):
            for both in (False, True):
                kill = partial(kill_database, tree, calls, both)
                kill_at_each(long, is_killed, f"{calls}, {both}", kill)


def case_compacting_database_outlasts_its_server(tree: Tree) -> None:
    """The next server waits for a database that goes on without the one that started it."""
    needs("strace")
    long = long_tree(tree)
    for calls in ("flock", "fsync", "rename"):
        for is_killed in (False, True):
            long.leave(is_killed)
            write_database(tree, " ".join(injected(calls, SLOW)), is_server_killed=False)
            with start_server(tree, [], str(tree.path("database"))) as process:
                tree.until("it begins", tree.path(".redo/log.new").exists)
                time.sleep(0.3)
                process.kill()
            long.stands(f"slow {calls}, killed before: {is_killed}")


def kill_at_each(long: Long, is_killed: bool, what: str, kill: "partial[bool]") -> None:
    """Kills at the first of some calls of a start, at the second, and so on."""
    for number in range(1, 100):
        long.leave(is_killed)
        is_hit = kill(number)
        long.stands(f"{what}, number {number}, killed before: {is_killed}")
        if not is_hit:
            return
    long.tree.check.true(f"{what}: a start comes to its end", False)


def injected(calls: str, what: str) -> list[str]:
    """The words before a program to which this happens at such calls."""
    return [*STRACE, f"trace={calls}", "-e", f"inject={calls}:{what}"]


def kill_server(tree: Tree, calls: str, number: int) -> bool:
    """Starts a server that is killed at a call; says whether it was, before it let clients in."""
    return not is_ready(tree, injected(calls, KILL.format(number)), tree.live)


def kill_database(tree: Tree, calls: str, both: bool, number: int) -> bool:
    """Starts a server whose database is killed at a call; says whether it was."""
    write_database(tree, " ".join(injected(calls, KILL.format(number))), both)
    return not is_ready(tree, [], str(tree.path("database")))


def compact_and_kill(tree: Tree) -> None:
    """Starts a server whose database compacts the log and ends, and which is killed then."""
    text = f"#!/bin/sh\n'{tree.live}' \"$@\" </dev/null >/dev/null\nkill -KILL $PPID\n"
    write_program(tree, text)
    tree.check.true("it is killed", not is_ready(tree, [], str(tree.path("database"))))


def write_database(tree: Tree, before: str, is_server_killed: bool) -> None:
    """Writes a database that is run so, and whose server can be killed when it was."""
    killed = "yes" if is_server_killed else ""
    write_program(tree, DATABASE.format(before=before, live=tree.live, is_server_killed=killed))


def write_program(tree: Tree, text: str) -> None:
    """Writes the program that takes the place of the database."""
    tree.write("database", text)
    tree.path("database").chmod(0o755)


def is_ready(tree: Tree, before: list[str], live: str) -> bool:
    """Starts a server; says whether it lets clients in. Then it is killed."""
    with start_server(tree, before, live) as process:
        tree.until("it ends or is ready", lambda: is_greeted(tree) or process.poll() is not None)
        return process.poll() is None and is_killed(tree)


def is_killed(tree: Tree) -> bool:
    """Kills a server; says whether it was still there, which strace may not know yet."""
    try:
        os.kill(int(tree.read(".redo/server/lock")), signal.SIGKILL)
    except ProcessLookupError:
        return False
    return True


def start_server(tree: Tree, before: list[str], live: str) -> "subprocess.Popen[bytes]":
    """Starts a server with this database."""
    words = [*before, "redo-server", "--top", str(tree.folder), "--idle", "60"]
    return tree.start(*words, environment={"REDODB_LIVE": live})


def is_greeted(tree: Tree) -> bool:
    """Whether a server lets a client in."""
    with socket.socket(socket.AF_UNIX) as client, contextlib.suppress(OSError):
        client.settimeout(0.1)
        client.connect(os.fspath(Path(os.path.relpath(tree.path(".redo/server/socket")))))
        return client.recv(8) == b"session "
    return False
