"""What changes while a run judges or a script runs: nothing of it is lost, and nobody hangs."""
import os
import socket
import subprocess
import sys
import time

from trees import PROGRAM_FOLDER, TOP, Ended, Tree, ended, needs


class Builder:
    """Another redo, as the server sees it: it builds x without a script."""

    def __init__(self, tree: Tree) -> None:
        self._tree = tree
        self._socket = socket.socket(socket.AF_UNIX)
        folder = os.open(tree.path(".redo/server"), os.O_PATH)
        self._socket.connect(f"/proc/self/fd/{folder}/socket")
        os.close(folder)
        self._lines = self._socket.makefile("rw")
        self._lines.readline()
        self._number = 0

    def ask(self, *requests: str) -> None:
        """Sends requests, and waits for the answer to each."""
        for request in requests:
            self._number += 1
            self._lines.write(f"{self._number} {request}\n")
        self._lines.flush()
        for _ in requests:
            self._lines.readline()

    def close(self) -> None:
        """Ends the session."""
        self._lines.close()
        self._socket.close()


def stamp(tree: Tree, name: str) -> str:
    """The stamp of a file, as the Python package has it."""
    reads = "import os, sys; from redodb.stamps import stamp_of"
    code = f"{reads}; print(stamp_of(os.fsencode(sys.argv[1])))"
    words = [sys.executable, "-c", code, str(tree.path(name))]
    environment = {**os.environ, "PYTHONPATH": str(TOP / "python")}
    run = subprocess.run(words, env=environment, capture_output=True, text=True, check=True)
    return run.stdout.strip()


def slowly(tree: Tree, *words: str) -> "subprocess.Popen[bytes]":
    """Starts a program that reads each answer half a second late, and waits until it has made its
    request, which names its folder."""
    needs("strace")
    until = str(tree.folder.resolve())
    trace = ["-e", "trace=recvfrom,write,sendto", "-e", "inject=recvfrom:delay_enter=500000"]
    program = str(PROGRAM_FOLDER / words[0])
    run = tree.start("strace", "-qq", "-s", "400", "-o", "trace", *trace, program, *words[1:])
    tree.until("it has asked", lambda: until in tree.read("trace"))
    return run


def case_changed_between_two_requests(tree: Tree) -> None:
    """A file that changes after it was found not to have changed is not taken as it was read."""
    tree.files(x__do="cat y\nredo-ifchange y\n", y="AAAA\n")
    run = slowly(tree, "redo", "x")
    time.sleep(0.2)
    tree.write("y", "BBBB\n")
    tree.check.same("status", ended(run).status, 0)
    tree.ifchange("x")
    tree.check.same("x", tree.read("x"), "BBBB\n")


def case_judged_after_the_lock(tree: Tree) -> None:
    """What a run knows of a target is from after its lock was granted: nothing is frozen."""
    tree.files(x__do="redo-ifchange src\ncat src\n", src="1\n")
    tree.redo("x")
    tree.write("src", "22\n")
    other = Builder(tree)
    other.ask("look", "lock x", "start x", "look x.do src", "ifchange x x.do src")
    run = slowly(tree, "redo-ifchange", "x")
    time.sleep(0.05)
    tree.write("new", "22\n")
    os.rename(tree.path("new"), tree.path("x"))
    other.ask(f"done x {stamp(tree, 'x')}", "unlock x")
    second = ended(run)
    other.close()
    tree.check.same("status and words", (second.status, second.err), (0, ""))
    tree.write("src", "333\n")
    tree.ifchange("x")
    tree.check.same("x", tree.read("x"), "333\n")


def case_built_while_it_asks(tree: Tree) -> None:
    """A run that is slow to read doesn't build again what another one built meanwhile."""
    tree.files(t__do=f"echo ran >>ran\n{PAUSE}echo t\n")
    first = while_it_runs(tree, "redo", "t")
    second = slowly(tree, "redo-ifchange", "t")
    tree.check.same("first", goes_on(tree, first).status, 0)
    tree.check.same("second", ended(second).status, 0)
    tree.check.same("ran", tree.count("ran"), 1)


def while_it_runs(tree: Tree, *words: str) -> "subprocess.Popen[bytes]":
    """Starts a program, and returns once a script of it has written the file `ready`."""
    for name in ("ready", "go"):
        tree.path(name).unlink(missing_ok=True)
    run = tree.start(*words)
    tree.until("the script runs", tree.path("ready").exists)
    return run


def goes_on(tree: Tree, run: "subprocess.Popen[bytes]") -> Ended:
    """Lets the script go on, and waits for the program's end."""
    tree.write("go", "")
    return ended(run)


def until(name: str) -> str:
    """The line of a script that waits for a file."""
    return f"while [ ! -e {name} ]; do sleep 0.02; done\n"


PAUSE = ": >ready\n" + until("go")


def case_asked_twice(tree: Tree) -> None:
    """A source that is edited between the two requests of a script for it isn't lost."""
    tree.files(x__do=f"redo-ifchange y\ncat y >$3\n{PAUSE}redo-ifchange y z\n", y="old\n", z="")
    run = while_it_runs(tree, "redo-ifchange", "x")
    tree.write("y", "newer\n")
    tree.check.same("status", goes_on(tree, run).status, 0)
    why = tree.run("redo-why", "x").out
    tree.check.same("why", why, "x changed while it was built\n")
    tree.ifchange("x")
    tree.check.same("x", tree.read("x"), "newer\n")
    tree.check.same("then nothing", tree.ifchange("x").built, [])


def case_failed_and_then_there(tree: Tree) -> None:
    """A name that can't be made at first, and is there when the script asks again, isn't lost."""
    script = f"if redo-ifchange y; then cat y; else echo without; fi >$3\n{PAUSE}redo-ifchange y\n"
    tree.files(x__do=script)
    run = while_it_runs(tree, "redo-ifchange", "x")
    tree.write("y", "with\n")
    tree.check.same("status", goes_on(tree, run).status, 0)
    tree.ifchange("x")
    tree.check.same("x", tree.read("x"), "with\n")


def case_rule_appears(tree: Tree) -> None:
    """A script that goes on without a name is run again once there is a rule for it."""
    tree.files(x__do="if redo-ifchange y; then cat y; else echo without; fi\n")
    tree.ifchange("x")
    tree.check.same("without", (tree.read("x"), tree.ifchange("x").built), ("without\n", []))
    tree.files(y__do="echo with\n")
    tree.check.same("why", tree.run("redo-why", "x").out, "x <- y.do appeared\n")
    tree.ifchange("x")
    tree.check.same("with", tree.read("x"), "with\n")


def case_default_rule_appears(tree: Tree) -> None:
    """That holds for a rule by which any name is made, too."""
    tree.files(x__do="if redo-ifchange y.a; then cat y.a; else echo without; fi\n")
    tree.ifchange("x")
    tree.write("default.a.do", "echo with\n")
    tree.ifchange("x")
    tree.check.same("with", tree.read("x"), "with\n")


def case_read_before_it_was_asked_for(tree: Tree) -> None:
    """A header that is edited while the compiler runs, and named only afterwards, isn't lost."""
    tree.files(x__do=f"cat y >$3\n{PAUSE}redo-ifchange y\n", y="old\n")
    run = while_it_runs(tree, "redo-ifchange", "x")
    tree.write("y", "newer\n")
    tree.check.same("status", goes_on(tree, run).status, 0)
    tree.write("go", "")
    tree.ifchange("x")
    tree.check.same("x", tree.read("x"), "newer\n")
    tree.check.same("then nothing", tree.ifchange("x").built, [])


# after so many seconds, an edit is older for the clock of a file system than what begins then
TICK = 0.03
COMPILES = f"""redo-ifchange x.c
gcc -MD -MF x.d -MT x.o -c -o $3 x.c
{PAUSE}read -r names <x.d
redo-ifchange ${{names#*:}}
"""


def case_edited_during_the_compile(tree: Tree) -> None:
    """A source or a header that is edited while the compiler runs, which names both at its end, has
    the object built again; without an edit there is nothing to do."""
    needs("gcc")
    tree.files(x__o__do=COMPILES, x__c='#include "x.h"\nint x = X;\n', x__h="#define X 1\n")
    time.sleep(TICK)
    tree.check.same("status", goes_on(tree, while_it_runs(tree, "redo", "x.o")).status, 0)
    tree.check.same("without an edit", tree.ifchange("x.o").built, [])
    edits = {"x.h": "#define X 2\n", "x.c": '#include "x.h"\nint x = X + 1;\n'}
    for name, text in edits.items():
        run = while_it_runs(tree, "redo", "x.o")
        tree.write(name, text)
        tree.check.same(f"{name}: status", goes_on(tree, run).status, 0)
        time.sleep(TICK)
        tree.check.same(f"{name}: built again", tree.ifchange("x.o").built, ["x.o"])
        tree.run("gcc", "-c", "-o", "wanted", "x.c")
        same = tree.path("x.o").read_bytes() == tree.path("wanted").read_bytes()
        tree.check.true(f"{name}: x.o is that of the compiler", same)
        tree.check.same(f"{name}: then nothing", tree.ifchange("x.o").built, [])


def case_gone_in_the_run(tree: Tree) -> None:
    """A target whose file is removed after the run built it isn't taken for built: who asks for it
    later is told, and what went on without the file isn't up to date once it is there again."""
    tree.files(
        a__do="echo text\necho text | redo-stamp\n",
        p__do="redo-ifchange a || :\nif [ -e a ]; then cat a; else echo nothing; fi\n",
        all__do=f"redo-ifchange a\n{PAUSE}redo-ifchange p\n",
    )
    run = while_it_runs(tree, "redo-ifchange", "all")
    tree.path("a").unlink()
    first = goes_on(tree, run)
    told = "redo: a was built in this run, and its file is gone" in first.lines
    tree.check.same("told, or built again", (told, tree.path("a").exists()), (True, False))
    tree.check.same("p went on", tree.read("p"), "nothing\n")
    tree.ifchange("p")
    tree.check.same("p", (tree.read("a"), tree.read("p")), ("text\n", "text\n"))
    tree.check.same("then nothing", tree.ifchange("p").built, [])


def case_always_after_another_run_began(tree: Tree) -> None:
    """A target that was declared always after another run began is built again by that one."""
    tree.files(
        x__do=f"cat world >$3\n{PAUSE}redo-always\n",
        slow__do="redo-always\n: >slow.ready\nwhile [ ! -e slow.go ]; do sleep 0.02; done\n",
        world="old\n",
        go="",
    )
    tree.write("slow.go", "")
    tree.redo("x", "slow")
    for name in ("slow.ready", "slow.go"):
        tree.path(name).unlink()
    first = while_it_runs(tree, "redo", "x")
    tree.write("world", "newer\n")
    second = tree.start("redo-ifchange", "slow", "x")
    tree.until("the second run is at work", tree.path("slow.ready").exists)
    goes_on(tree, first)
    tree.write("slow.go", "")
    tree.check.same("second", ended(second).status, 0)
    tree.check.same("x", tree.read("x"), "newer\n")


def case_asks_and_ends(tree: Tree) -> None:
    """A script that ends while a redo-ifchange of its own waits takes no job with it."""
    tree.files(
        all__do="redo-ifchange p\nredo-ifchange q\n",
        p__do=f"redo-ifchange t >/dev/null 2>&1 &\n{until('t.began')}echo p >$3\n",
        t__do=f": >t.began\n{until('p')}echo t >$3\n",
        q__do="echo q >$3\n",
    )
    for jobs in ("-j1", "-j2"):
        tree.redo(jobs, "all")
        tree.check.same(f"{jobs}: q", tree.read("q"), "q\n")
        for name in ("p", "q", "t", "t.began"):
            tree.path(name).unlink(missing_ok=True)


def case_asks_while_another_request_waits(tree: Tree) -> None:
    """A script asks again while its job's token is on its way back from another request."""
    tree.files(
        a__do=f": >a.began\n{until('b.began')}echo a >$3\n",
        b__do=f": >b.began\n{until('p.asks')}sleep 0.5\necho b >$3\n",
        c__do="echo c >$3\n",
        p__do=f"redo-ifchange a &\n{until('a')}: >p.asks\nredo-ifchange c\nwait\necho p >$3\n",
        q__do="redo-ifchange b\necho q >$3\n",
    )
    other = tree.start("redo", "a")
    tree.until("another run builds a", tree.path("a.began").exists)
    tree.redo("p", "q")
    tree.check.same("the other run", ended(other).status, 0)


def case_order_of_a_request(tree: Tree) -> None:
    """Names are built in the order in which a script asks for them."""
    tree.files(default__t__do="echo $2 >>order\n", x__do="redo-ifchange c.t a.t b.t\n")
    tree.redo("x")
    tree.check.same("order", tree.read("order"), "c\na\nb\n")
