"""The processes of scripts, the names of what they write, and what is never taken away."""
import os
import re
import shutil
import signal
import subprocess
import time

from cases_hostile import give_away, unprivileged
from trees import Ended, Skipped, Tree, ended, needs, sleepers

SLOW = 'echo "$$" >>"$3"\n: >began\nsleep 300 &\nsleep 300\n'
FOLDER = 'redo-ifchange text\nmkdir -p "$3/sub"\ncp text "$3/a"\ncp text "$3/sub/b"\n'
LONGEST_VARIABLE = 131_072


def kill_all(tree: Tree, run: "subprocess.Popen[bytes]") -> None:
    """Kills the server and a run at once."""
    os.kill(int(tree.read(".redo/server/lock")), signal.SIGKILL)
    run.kill()
    ended(run)


def case_script_dies_with_run_and_server(tree: Tree) -> None:
    """If a run and its server are killed at once, the script dies, and all that it started.

    The next run builds alone, and removes what the killed one left.
    """
    tree.files(t__do=SLOW)
    run = tree.start("redo", "t")
    tree.until("began", tree.path("began").exists)
    kill_all(tree, run)
    tree.until("all processes are gone", lambda: not sleepers(tree, False))
    tree.files(t__do='echo "$$" >>"$3"\n')
    tree.redo("t")
    tree.check.same("builders", tree.count("t"), 1)
    tree.check.same("left over", tree.left_over(), [])


def case_script_that_kills_its_run(tree: Tree) -> None:
    """If a run is killed just when a script begins, the next run finds the script, and kills it."""
    for _ in range(5):
        tree.files(t__do='kill -9 "$PPID"\n: >began\nsleep 300\n')
        tree.check.same("status", tree.run("redo", "t").status, -signal.SIGKILL)
        tree.files(t__do="echo t\n")
        tree.redo("t")
        tree.check.same("left over", tree.left_over(), [])
        time.sleep(0.1)
        left = list(sleepers(tree, False))
        tree.check.same("processes", len(left), 0)
        for process in left:
            os.kill(process, signal.SIGKILL)


def case_left_of_a_folder_that_came(tree: Tree) -> None:
    """What a killed build left is removed too if the folder of its target is there by now."""
    tree.files(default__o__do='echo "$1" >"$3"\nmkdir -p d\n: >began\nsleep 300\n')
    run = tree.start("redo", "d/x.o")
    tree.until("began", tree.path("began").exists)
    run.kill()
    ended(run)
    tree.files(default__o__do='echo "$1" >"$3"\n')
    tree.redo("d/x.o")
    tree.check.same("d/x.o", tree.read("d/x.o"), "d/x.o\n")
    tree.check.same("left over", tree.left_over(), [])


def case_left_in_background(tree: Tree) -> None:
    """What a script leaves in the background goes on, also when the run has ended."""
    tree.files(x__do="sh ./left >/dev/null 2>&1 &\necho x\n")
    tree.write("left", "while ! [ -e go ]; do sleep 0.01; done\n: >went\n")
    tree.redo("x")
    time.sleep(0.3)
    tree.write("go", "")
    tree.until("went", tree.path("went").exists)


def case_alike_names(tree: Tree) -> None:
    """`d/x`, whose folder isn't there, and `d__x` have different $3."""
    tree.write(
        "default.o.do",
        'echo "$1" >"$3"\n: >"began.$(echo "$1" | tr / -)"\n'
        "while ! [ -e began.d-x.o ] || ! [ -e began.d__x.o ]; do sleep 0.01; done\n"
        "mkdir -p d\n",
    )
    tree.redo("-j2", "d/x.o", "d__x.o")
    tree.check.same("d/x.o", tree.read("d/x.o"), "d/x.o\n")
    tree.check.same("d__x.o", tree.read("d__x.o"), "d__x.o\n")
    tree.check.same("left over", tree.left_over(), [])


def case_longest_name(tree: Tree) -> None:
    """A target whose name is as long as a name may be has a $3."""
    name = "n" * 250
    tree.write("default.do", 'echo "$1" >"$3"\n')
    tree.redo(name)
    tree.check.same("target", tree.read(name), name + "\n")
    tree.check.same("left over", tree.left_over(), [])


def case_files_like_outputs(tree: Tree) -> None:
    """A file that has the name of $3 already isn't removed: the build fails, and names it."""
    tree.files(x__do='echo "$3" >third\necho x >"$3"\n')
    tree.files(x__redo__tmp="mine\n", x__redo__out="mine\n")
    tree.redo("x")
    tree.check.same("older names", tree.read("x.redo.tmp") + tree.read("x.redo.out"), "mine\n" * 2)
    found = re.fullmatch(r"(.*\D)(\d+)(\D*)\n", tree.read("third"))
    assert found is not None
    first, number, last = found[1], int(found[2]), found[3]
    names = [f"{first}{number + more}{last}" for more in range(-1, 9)]
    for name in names:
        tree.write(name, "precious\n")
    run = tree.run("redo", "x")
    tree.check.same("status", run.status, 1)
    tree.check.true(f"named: {run.err}", any(name in run.err for name in names))
    tree.check.same("one line", len([line for line in run.lines if "redo." in line]), 1)
    tree.check.same("kept", {tree.read(name) for name in names}, {"precious\n"})
    tree.check.same("x", tree.read("x"), "x\n")
    for name in names:
        tree.path(name).unlink()
    tree.redo("x")


def refused(tree: Tree, target: str, part: str) -> Ended:
    """Checks that a target can't be built, and that one line has a part. Nothing may be left."""
    run = tree.run("redo", target)
    tree.check.same(f"{target}: status", run.status, 1)
    named = [line for line in run.lines if part in line]
    tree.check.same(f"{target}: lines with {part} ({run.err})", len(named), 1)
    tree.check.same("left over", tree.left_over(), [])
    return run


def case_folder_of_the_user(tree: Tree) -> None:
    """A folder that no build made isn't replaced, whatever is in it."""
    tree.files(gen__do=FOLDER, text="1\n")
    tree.write("gen/notes", "precious\n")
    refused(tree, "gen", "gen: ")
    tree.check.same("status", tree.run("redo-ifchange", "gen").status, 1)
    tree.check.same("notes", tree.read("gen/notes"), "precious\n")
    shutil.rmtree(tree.path("gen"))
    tree.path("gen").mkdir()
    refused(tree, "gen", "gen: ")
    tree.path("gen").rmdir()
    tree.redo("gen")
    tree.check.same("gen/a", tree.read("gen/a"), "1\n")


def case_file_in_a_folder_target(tree: Tree) -> None:
    """A file that somebody put into a folder target, or edited there, is never removed."""
    tree.files(gen__do=FOLDER, text="1\n")
    tree.redo("gen")
    tree.write("gen/sub/notes", "precious\n")
    tree.write("text", "22\n")
    refused(tree, "gen", "gen/sub/notes")
    tree.check.same("notes", tree.read("gen/sub/notes"), "precious\n")
    tree.check.same("the rest", tree.read("gen/a"), "1\n")
    tree.path("gen/sub/notes").rename(tree.path("notes"))
    tree.write("gen/a", "edited\n")
    refused(tree, "gen", "gen/a")
    tree.check.same("edited", tree.read("gen/a"), "edited\n")
    tree.path("gen/a").unlink()
    tree.redo("gen")
    tree.check.same("gen", tree.read("gen/a") + tree.read("gen/sub/b"), "22\n22\n")
    tree.write("text", "333\n")
    tree.ifchange("gen")
    tree.check.same("again", tree.read("gen/a"), "333\n")
    tree.path("gen/empty").mkdir()
    tree.write("text", "4444\n")
    refused(tree, "gen", "gen/empty")


def case_folder_moved_in(tree: Tree) -> None:
    """A folder that the user put in the place of a folder target isn't removed."""
    tree.files(gen__do=FOLDER, text="1\n")
    tree.redo("gen")
    shutil.rmtree(tree.path("gen"))
    tree.write("gen/a", "mine, quite another\n")
    tree.write("text", "22\n")
    refused(tree, "gen", "gen/a")
    tree.check.same("gen/a", tree.read("gen/a"), "mine, quite another\n")


def case_links_in_a_folder_target(tree: Tree) -> None:
    """A folder target can have links: what they lead to is never touched, and may change."""
    tree.files(gen__do='redo-ifchange text\nmkdir "$3"\nln -s ../kept ../text "$3"\n', text="1\n")
    tree.write("kept/notes", "precious\n")
    tree.redo("gen")
    tree.write("text", "22\n")
    tree.write("kept/more", "precious\n")
    tree.ifchange("gen")
    tree.check.same("kept", sorted(os.listdir(tree.path("kept"))), ["more", "notes"])
    tree.path("gen/kept").unlink()
    tree.path("gen/kept").symlink_to("../elsewhere")
    refused(tree, "gen", "gen/kept")


def case_link_in_place_of_a_folder_target(tree: Tree) -> None:
    """A link that the user put in the place of a folder target isn't followed."""
    tree.files(gen__do=FOLDER, text="1\n")
    tree.redo("gen")
    tree.path("gen").rename(tree.path("elsewhere"))
    tree.path("gen").symlink_to("elsewhere")
    tree.write("text", "22\n")
    tree.run("redo", "gen")
    tree.check.same("elsewhere", tree.read("elsewhere/a"), "1\n")
    tree.check.same("left over", tree.left_over(), [])


def case_read_only_folder_target(tree: Tree) -> None:
    """Folders in a folder target that aren't writable are replaced as others are."""
    tree.files(gen__do=FOLDER + 'chmod 555 "$3/sub"\n', text="1\n")
    give_away(tree)
    run = tree.run("redo", "gen", **unprivileged())
    tree.check.same(f"first: status ({run.err})", run.status, 0)
    tree.write("text", "22\n")
    run = tree.run("redo", "gen", **unprivileged())
    tree.check.same(f"second: status ({run.err})", run.status, 0)
    tree.check.same("gen", tree.read("gen/a") + tree.read("gen/sub/b"), "22\n22\n")
    tree.check.same("left over", tree.left_over(), [])
    tree.files(gen__do=FOLDER + 'chmod 555 "$3/sub"\nexit 1\n')
    tree.check.same("third: status", tree.run("redo", "gen", **unprivileged()).status, 1)
    tree.check.same("left over", tree.left_over(), [])


def case_file_for_a_folder(tree: Tree) -> None:
    """A file never takes the place of a folder, nor a folder that of a file."""
    tree.files(x__do=FOLDER, y__do="echo y\n", text="1\n")
    tree.redo("x", "y")
    tree.files(x__do="echo x\n", y__do='mkdir "$3"\n')
    refused(tree, "x", "x: ")
    tree.check.same("x/a", tree.read("x/a"), "1\n")
    refused(tree, "y", "y: ")
    tree.check.same("y", tree.read("y"), "y\n")
    tree.files(x__do=":\n")
    tree.redo("x")
    tree.check.same("x/a", tree.read("x/a"), "1\n")


def case_edit_right_after_the_rename(tree: Tree) -> None:
    """A target that is edited as soon as it is there isn't taken as built."""
    needs("strace")
    tree.files(x__do="redo-ifchange text\ncat text\n", text="1\n")
    tree.redo("x")
    tree.write("text", "22\n")
    words = ["strace", "-o", "/dev/null", "-e", "trace=/^rename"]
    words += ["-e", "inject=/^rename:delay_exit=1500000", "redo-ifchange", "x"]
    run = tree.start(*words)
    while tree.read("x") != "22\n" and run.poll() is None:
        time.sleep(0.005)
    if run.poll() is not None:
        raise Skipped(f"strace can't slow a program down: {ended(run).err[-100:]}")
    time.sleep(0.1)
    with open(tree.path("x"), "r+", encoding="ascii") as file:
        file.write("MY EDIT\n")
    tree.check.same("status", ended(run).status, 0)
    tree.write("text", "333\n")
    tree.run("redo-ifchange", "x")
    tree.check.same("x", tree.read("x"), "MY EDIT\n")


def case_interpreters(tree: Tree) -> None:
    """An interpreter that can't be run is one line that names it; other targets are built."""
    tree.files(good__do="echo good\n", plain="text\n")
    plain = tree.path("plain").resolve()
    scripts = {
        "nul": "#!/bin/sh\0x\necho b\n",
        "absent": "#!/no/such/interpreter -e\n",
        "plain": f"#!{plain}\n",
        "folder": "#!/etc\n",
    }
    for name, text in scripts.items():
        tree.write(f"{name}.bad.do", text)
        tree.path("good").unlink(missing_ok=True)
        run = tree.run("redo", "-k", f"{name}.bad", "good")
        tree.check.same(f"{name}: status", run.status, 1)
        lines = [line for line in run.lines if not line.startswith("redo:   ")]  # not the summary
        said = [line for line in lines if "Traceback" in line or "bad.do" in line]
        tree.check.same(f"{name}: lines ({run.err})", len(said), 1)
        word = text.split()[0][2:].partition("\0")[0]
        tree.check.has(f"{name}: interpreter", "".join(said), word)
        tree.check.same(f"{name}: good", tree.read("good"), "good\n")
        tree.check.same("left over", tree.left_over(), [])


def case_interpreter_within_a_script(tree: Tree) -> None:
    """A script whose redo-ifchange meets such an interpreter can go on."""
    tree.files(
        b__do="#!/bin/sh\0x\n",
        a__do="redo-ifchange b || echo failed\nredo-ifchange c\ncat c\n",
        c__do="echo c\n",
    )
    tree.redo("a")
    tree.check.same("a", tree.read("a"), "failed\nc\n")


def case_environment_too_long(tree: Tree) -> None:
    """If the environment is too long for a script, that is one line."""
    tree.files(x__do="echo x\n")
    tree.redo("x")
    path = ":" + tree.environment["PATH"]
    path = "/" + "y" * (LONGEST_VARIABLE - 2 - len("PATH=") - len(path)) + path
    run = tree.run("redo", "x", environment={"PATH": path})
    tree.check.same("status", run.status, 1)
    said = [line for line in run.lines if "Traceback" in line or "too long" in line]
    tree.check.same("lines", len(said), 1)
    tree.check.has("named", "".join(said), "x.do")
    tree.check.same("left over", tree.left_over(), [])


def in_namespace(tree: Tree, text: str) -> "subprocess.Popen[bytes]":
    """Starts a shell in a PID namespace of its own."""
    return tree.start("unshare", "-p", "-f", "--kill-child", "--mount-proc", "sh", "-c", text)


def needs_namespaces(tree: Tree) -> None:
    """Skips a case if there can be no PID namespace."""
    needs("unshare")
    if ended(in_namespace(tree, "exit 0")).status != 0:
        raise Skipped("no PID namespace")


def case_groups_of_another_namespace(tree: Tree) -> None:
    """A run that is killed in a PID namespace of its own costs no process of the server's."""
    needs_namespaces(tree)
    tree.files(w__do="echo w\n", x__do=": >began\nwhile :; do sleep 0.05; done\n")
    server = in_namespace(
        tree,
        "for i in $(seq 60); do setsid sleep 300 & done\nredo w\n: >ready\n"
        "while ! [ -e go ]; do sleep 0.05; done\npgrep -c -x -f 'sleep 300' >left",
    )
    tree.until("server", tree.path("ready").exists)
    run = in_namespace(tree, "redo x & while ! [ -e kill ]; do sleep 0.01; done; kill -9 $!; wait")
    tree.until("began", tree.path("began").exists)
    time.sleep(0.3)
    tree.write("kill", "")
    ended(run)
    time.sleep(0.5)
    tree.write("go", "")
    ended(server)
    tree.check.same("left", tree.read("left"), "60\n")


def case_runs_in_two_namespaces(tree: Tree) -> None:
    """Runs in two PID namespaces don't take each other for dead, nor share a socket."""
    needs_namespaces(tree)
    tree.files(
        y__do=": >began\nwhile ! [ -e go ]; do sleep 0.01; done\nredo-ifchange z\necho y\n",
        z__do="echo z\n",
        w__do="redo-ifchange z\necho w\n",
    )
    first = in_namespace(tree, "for i in $(seq 300); do /bin/true; done; redo y")
    tree.until("began", tree.path("began").exists)
    tree.check.same("other", ended(in_namespace(tree, "redo w; exit $?")).status, 0)
    tree.write("go", "")
    run = ended(first)
    tree.check.same(f"status ({run.err})", run.status, 0)
    tree.path("go").unlink()
    tree.path("began").unlink()
    second = in_namespace(tree, "redo y; exit $?")
    tree.until("began", tree.path("began").exists)
    same = in_namespace(tree, "redo w; exit $?")
    tree.check.same("same number", ended(same).status, 0)
    tree.write("go", "")
    run = ended(second)
    tree.check.same(f"status ({run.err})", run.status, 0)


def case_links_below_run(tree: Tree) -> None:
    """A link in the place of a note of builds, or of the folder of manifests, is refused by name."""
    tree.files(gen__do=FOLDER, x__do="echo x\n", text="1\n", mine="+ 1 precious\n")
    tree.redo("x")
    tree.path(".redo/run/1.builds").symlink_to("../../mine")
    run = tree.run("redo", "x")
    tree.check.same("status", run.status, 1)
    tree.check.has("named", run.err, "1.builds")
    tree.check.same("mine", tree.read("mine"), "+ 1 precious\n")
    tree.path(".redo/run/1.builds").unlink()
    tree.path("other").mkdir()
    tree.path(".redo/folders").symlink_to("../other")
    run = tree.run("redo", "gen")
    tree.check.same("folders: status", run.status, 1)
    tree.check.has("folders: named", run.err, "folders")
    tree.check.same("other", os.listdir(tree.path("other")), [])
    tree.check.same("left over", tree.left_over(), [])
