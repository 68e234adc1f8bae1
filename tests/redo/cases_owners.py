"""Trees and .do files of other users: nothing of them is run that the caller didn't ask for."""
import os
import shutil
import subprocess
from pathlib import Path
from typing import Any

from trees import Ended, Skipped, Tree, end_server

MALLORY, ALICE = 4001, 4002
PYTHON = "/usr/bin/python3"
LISTEN = """
import os, socket, sys
os.chdir(sys.argv[1]); os.umask(0)
listener = socket.socket(socket.AF_UNIX)
listener.bind("socket"); listener.listen(9); listener.settimeout(60)
print("here", flush=True)
connection, _ = listener.accept()
known = {b"look": b"ok 0", b"why": b"clean", b"state": b"built lock - file 1"}
rest = b""
try:
    connection.sendall(b"session 1\\n")
    while data := connection.recv(65536):
        *lines, rest = (rest + data).split(b"\\n")
        for line in lines:
            number, _, request = line.partition(b" ")
            word = request.split(b" ")[0]
            connection.sendall(number + b" " + known.get(word, b"ok") + b"\\n")
except ConnectionError:
    pass
"""
TALK = """
import os, socket, sys
os.chdir(os.path.dirname(sys.argv[1]))
connection = socket.socket(socket.AF_UNIX)
connection.settimeout(60)
connection.connect(os.path.basename(sys.argv[1]))
try:
    connection.sendall(sys.argv[2].encode().decode("unicode_escape").encode())
    while data := connection.recv(65536):
        sys.stdout.buffer.write(data)
        sys.stdout.buffer.flush()
        if data.startswith(b"session"):
            break
except ConnectionError:
    print("closed")
"""


def by(user: int) -> dict[str, Any]:
    """Options for a program to run as a user."""
    return {"user": user, "group": user, "extra_groups": []}


def two_users(tree: Tree) -> None:
    """Skips a case if this isn't root, or if other users can't run these programs."""
    if os.getuid() != 0:
        raise Skipped("only root can be two users")
    os.chmod(tree.folder.parent, 0o755)
    try:
        subprocess.run(
            ["redo", "--version"],
            env=tree.environment,
            capture_output=True,
            check=True,
            **by(ALICE),
        )
    except (OSError, subprocess.CalledProcessError):
        raise Skipped("other users can't run redo") from None


def give(tree: Tree, name: str, user: int) -> None:
    """Has a user own a file, or a folder with all that is in it."""
    subprocess.run(["chown", "-hR", f"{user}:{user}", tree.path(name)], check=True)


def alices_tree(tree: Tree, top: str = "work") -> None:
    """Writes a tree of Alice."""
    two_users(tree)
    tree.write(f"{top}/x.do", "redo-ifchange src\ncat src\n")
    tree.write(f"{top}/src", "one\n")
    give(tree, top, ALICE)


def refused(tree: Tree, what: str, run: Ended, *parts: str) -> None:
    """Checks that a program ended with status 1, and one line that has these parts."""
    tree.check.same(f"{what}: status", run.status, 1)
    tree.check.same(f"{what}: lines of {run.err}", len(run.lines), 1)
    for part in parts:
        tree.check.has(f"{what}: message", run.err, part)


def case_state_of_another_user_above(tree: Tree) -> None:
    """A .redo of another user above the working folder is refused, and nothing of it is run."""
    alices_tree(tree)
    tree.write("default.do", "id >%s\n" % tree.path("evil"))
    tree.write("default", "")
    tree.write(".redo/log", "redodb-log 1\n1 file x 1 => ok\n")
    for one in (".redo", "default.do"):
        give(tree, one, MALLORY)
    os.chown(tree.folder, MALLORY, MALLORY)
    os.chmod(tree.folder, 0o777)
    for words in (("redo", "nothing"), ("redo-ifchange", "x"), ("redo-ood",), ("redo-why", "x")):
        run = tree.run(*words, folder="work", **by(ALICE))
        home = str(tree.folder.resolve() / ".redo")
        refused(tree, str(words), run, home, str(MALLORY), "REDO_TRUST", "mkdir .redo")
    tree.check.same("evil", tree.read("evil"), "(none)")
    tree.path("work/.redo").mkdir()
    give(tree, "work", ALICE)
    tree.ifchange("x", folder="work", **by(ALICE))
    tree.check.same("x", tree.read("work/x"), "one\n")


def case_top_folder_of_another_user(tree: Tree) -> None:
    """A folder of another user doesn't become a tree, and isn't one if .redo is the caller's."""
    alices_tree(tree)
    os.chmod(tree.path("work"), 0o777)
    os.chown(tree.path("work"), MALLORY, MALLORY)
    run = tree.run("redo", "x", folder="work", **by(ALICE))
    refused(tree, "new", run, "/work belongs to", str(MALLORY), "REDO_TRUST")
    tree.check.same("nothing made", tree.path("work/.redo").exists(), False)
    tree.path("work/.redo").mkdir()
    give(tree, "work/.redo", ALICE)
    run = tree.run("redo", "x", folder="work", **by(ALICE))
    refused(tree, "old", run, "/work belongs to", str(MALLORY), "REDO_TRUST")


def case_hostile_name_of_a_tree_of_another_user(tree: Tree) -> None:
    """What is printed of the names of others is one line, which does no harm in a shell either."""
    name = "$(touch evil)\n\x1b[31m'"
    alices_tree(tree, name)
    run = tree.run("redo", "x", folder=name)
    refused(tree, "redo", run, r"$(touch evil)\x0A\x1B[31m' belongs to")
    trust = run.err.partition("REDO_TRUST=")[2].rpartition("; else ")[0]
    said = tree.run("sh", "-c", f"printf %s {trust}")
    tree.check.same("in a shell", said.out, rf"{tree.folder.resolve()}/$(touch evil)\x0A\x1B[31m'")


def case_folder_that_all_may_write_to(tree: Tree) -> None:
    """A folder like /tmp is no top, however .redo in it is owned, and whatever is trusted."""
    alices_tree(tree)
    tree.path("shared/d").mkdir(parents=True)
    tree.path("shared/d/x.do").write_text("echo x\n")
    give(tree, "shared/d", ALICE)
    os.chmod(tree.path("shared"), 0o1777)
    for trusted in ("", "*"):
        run = tree.run("redo", "x", folder="shared", environment={"REDO_TRUST": trusted})
        refused(tree, f"{trusted} new", run, "/shared", "all may write to")
        tree.check.same("nothing made", tree.path("shared/.redo").exists(), False)
    for owner in (ALICE, 0, MALLORY):
        tree.path("shared/.redo").mkdir(exist_ok=True)
        os.chown(tree.path("shared/.redo"), owner, owner)
        run = tree.run("redo", "x", folder="shared/d", **by(ALICE))
        refused(tree, f"of {owner}", run, "/shared", "all may write to")
    tree.path("shared/d/.redo").mkdir()
    give(tree, "shared/d", ALICE)
    tree.redo("x", folder="shared/d", **by(ALICE))


def case_trees_that_are_trusted(tree: Tree) -> None:
    """REDO_TRUST names tops, or all of them by `*`; else root doesn't run what others wrote."""
    alices_tree(tree)
    top = str(tree.path("work").resolve())
    tree.redo("x", folder="work", **by(ALICE))
    end_server(tree, "work")
    for trusted in ("", ":", f"{top}/d", f"{top}x", "."):
        for program in ("redo", "redo-ifchange"):
            run = tree.run(program, "x", folder="work", environment={"REDO_TRUST": trusted})
            refused(tree, f"{trusted!r}", run, top, str(ALICE), f"REDO_TRUST={top}")
    for trusted in (top, f"/nothing:{top}:/other", "*", f"{top}/"):
        tree.redo("x", folder="work", environment={"REDO_TRUST": trusted})
    end_server(tree, "work")
    tree.redo("x", folder="work", environment={"SUDO_UID": str(ALICE)})
    run = tree.run("redo", "x", folder="work", environment={"SUDO_UID": str(MALLORY)})
    refused(tree, "another sudo", run, top)
    run = tree.run("redo", "x", folder="work", environment={"SUDO_UID": str(ALICE)}, **by(MALLORY))
    refused(tree, "not root", run, top)


def case_root_leaves_a_tree_to_its_owner(tree: Tree) -> None:
    """What root's redo makes in .redo belongs to the owner of the tree, who can go on."""
    for built_before in (False, True):
        top = f"tree{int(built_before)}"
        alices_tree(tree, top)
        if built_before:
            tree.redo("x", folder=top, **by(ALICE))
            end_server(tree, top)
        tree.write(f"{top}/y.do", "redo-ifchange x\n")
        tree.redo("y", folder=top, environment={"SUDO_UID": str(ALICE)})
        owners = {
            str(path): path.lstat().st_uid
            for path in [tree.path(f"{top}/.redo"), *tree.path(f"{top}/.redo").rglob("*")]
        }
        tree.check.same(
            f"{top}: of root", [path for path, owner in owners.items() if owner != ALICE], []
        )
        tree.check.true(f"{top}: all is there", len(owners) > 9)
        tree.write(f"{top}/src", "another\n")
        os.chown(tree.path(f"{top}/src"), ALICE, ALICE)
        tree.ifchange("x", folder=top, **by(ALICE))
        end_server(tree, top)
        tree.write(f"{top}/src", "the third one\n")
        tree.ifchange("x", "y", folder=top, **by(ALICE))
        tree.check.same(f"{top}: x", tree.read(f"{top}/x"), "the third one\n")
        tree.check.same(f"{top}: log", tree.run("redo-log", "x", folder=top, **by(ALICE)).status, 0)


def case_do_file_of_another_user(tree: Tree) -> None:
    """A .do file of another user isn't run, in the caller's own tree or by a link of theirs."""
    alices_tree(tree)
    tree.write("work/d/default.do", "id >evil\n")
    tree.write("work/mine", "echo mine\n")
    tree.write("work/other.do", "redo-ifchange d/y\n")
    give(tree, "work", ALICE)
    give(tree, "work/d", MALLORY)
    os.symlink("mine", tree.path("work/l.do"))
    os.chown(tree.path("work/l.do"), MALLORY, MALLORY, follow_symlinks=False)
    for words in (("redo", "d/y"), ("redo", "l"), ("redo-ifchange", "d/y"), ("redo-whichdo", "l")):
        run = tree.run(*words, folder="work", **by(ALICE))
        refused(tree, str(words), run, ".do belongs to", str(MALLORY))
    run = tree.run("redo", "other", folder="work", **by(ALICE))
    tree.check.same("in a script: status", run.status, 1)
    tree.check.has("in a script: message", run.err, "d/default.do belongs to")
    tree.check.same("evil", tree.read("work/d/evil"), "(none)")
    os.chown(tree.path("work/d/default.do"), 0, 0)
    os.chmod(tree.path("work/d"), 0o777)
    tree.redo("d/y", folder="work", **by(ALICE))
    tree.check.same("of root", tree.path("work/d/evil").exists(), True)


def case_do_file_of_the_trees_owner(tree: Tree) -> None:
    """Who trusts a tree runs its owner's .do files, and nobody else's."""
    alices_tree(tree)
    tree.write("work/y.do", "id >evil\n")
    give(tree, "work/y.do", MALLORY)
    trusted = {"REDO_TRUST": "*"}
    tree.redo("x", folder="work", environment=trusted)
    run = tree.run("redo", "y", folder="work", environment=trusted)
    refused(tree, "y", run, "y.do belongs to", str(MALLORY))
    tree.check.same("evil", tree.read("work/evil"), "(none)")


def case_files_of_the_state_of_another_user(tree: Tree) -> None:
    """A file in .redo that belongs to another user is refused by its name."""
    alices_tree(tree)
    for name in ("server/lock", "server/starting", "server/errors", "log", "server"):
        tree.redo("x", folder="work", **by(ALICE))
        end_server(tree, "work")
        os.chown(tree.path(f"work/.redo/{name}"), MALLORY, MALLORY)
        os.chmod(tree.path(f"work/.redo/{name}"), 0o777)
        run = tree.run("redo", "x", folder="work", **by(ALICE))
        refused(tree, name, run, f"/.redo/{name} belongs to", str(MALLORY))
        os.chown(tree.path(f"work/.redo/{name}"), ALICE, ALICE)


def case_another_user_listens(tree: Tree) -> None:
    """No word of a server is believed that another user runs."""
    alices_tree(tree)
    server = tree.path("work/.redo/server")
    server.mkdir(parents=True)
    give(tree, "work", ALICE)
    os.chmod(server, 0o777)
    script = tree.path("listen.py")
    script.write_text(LISTEN)
    with subprocess.Popen(
        [PYTHON, "-S", script, server], stdout=subprocess.PIPE, **by(MALLORY)
    ) as listener:
        assert listener.stdout is not None
        listener.stdout.readline()
        run = tree.run("redo-ifchange", "x", folder="work", **by(ALICE))
        listener.kill()
    refused(tree, "redo-ifchange", run, "/.redo/server/socket", str(MALLORY))
    tree.check.same("x", tree.read("work/x"), "(none)")


def case_another_user_asks(tree: Tree) -> None:
    """The server answers nobody but its own user, root, and the tree's owner; a run nobody."""
    alices_tree(tree)
    tree.write("work/slow.do", "touch began\nwhile [ ! -e go ]; do sleep 0.1; done\n")
    tree.write("talk.py", TALK)
    with tree.start("redo", "slow", folder="work", **by(ALICE)) as run:
        tree.until("it began", tree.path("work/began").exists)
        home = tree.path("work/.redo").resolve()
        told(tree, home / "server/socket", "1 ood\\n", "session ")
        sockets = [path for path in home.rglob("*") if path.is_socket()]
        tree.check.same("sockets", sockets, [home / "server/socket"])
        tree.path("work/go").touch()
        tree.check.same("the run", run.wait(60), 0)
        run.communicate()


def told(tree: Tree, socket: Path, message: str, answer: str) -> None:
    """Checks who is answered at a socket of Alice's that all can reach: not Mallory."""
    os.chmod(socket.parent, 0o777)
    os.chmod(socket, 0o777)
    for user, wanted in ((MALLORY, False), (ALICE, True), (0, True)):
        run = tree.run(PYTHON, "-S", "talk.py", str(socket), message, **by(user))
        what = f"{user} at {socket.parent.name}: {run.out} {run.err[-200:]}"
        tree.check.same(what, answer in run.out, wanted)


def case_servers_of_trees_of_others(tree: Tree) -> None:
    """`redodb serve --top` refuses what redo refuses."""
    alices_tree(tree)
    redodb = shutil.which("redodb") or str(Path(__file__).resolve().parents[2] / "redodb")
    run = tree.run(redodb, "serve", "--top", "work", "--idle", "0")
    tree.check.same("status", run.status, 2)
    tree.check.has("message", run.err, f"/work belongs to user {ALICE}, not to you")
    tree.check.same("nothing made", tree.path("work/.redo").exists(), False)
