"""Where a tree ends: its top, other trees in it, and what may lie in its .redo."""
import os
import subprocess
from pathlib import Path

from trees import Tree, end_server


def refused(tree: Tree, what: str, name: str, *words: str, folder: str = ".") -> None:
    """Checks that a program ends with status 1, and one line that has this name."""
    run = tree.run(*words, folder=folder)
    tree.check.same(f"{what}: status", run.status, 1)
    tree.check.has(f"{what}: message", run.err, name)
    tree.check.same(f"{what}: lines", len(run.lines), 1)


def case_rules_stop_at_the_top(tree: Tree) -> None:
    """No .do file above the top folder builds anything, or is looked for."""
    tree.write("default.do", "echo above\n")
    tree.write("top/d/default.c.do", "echo c\n")
    tree.path("top/.redo").mkdir()
    refused(tree, "redo x", "no rule to make x", "redo", "x", folder="top")
    tree.check.same("x", tree.read("top/x"), "(none)")
    tree.redo("d/x.c", folder="top")
    run = tree.run("redo-whichdo", "d/x.a", folder="top")
    wanted = "d/x.a.do d/default.a.do d/default.do default.a.do default.do"
    tree.check.same("redo-whichdo", (run.status, run.out.split()), (1, wanted.split()))


def case_rules_without_a_tree(tree: Tree) -> None:
    """Before there is .redo, the working folder is the top."""
    tree.write("default.do", "echo above\n")
    tree.path("d").mkdir()
    run = tree.run("redo-whichdo", "x", folder="d")
    tree.check.same("redo-whichdo", (run.status, run.out.split()), (1, ["x.do", "default.do"]))
    refused(tree, "redo", "no rule to make x", "redo", "x", folder="d")


def case_names_outside_are_sources(tree: Tree) -> None:
    """What is outside of the tree is a source, also if a .do file is beside it."""
    tree.write("y.do", "echo made\n")
    tree.write("y", "one\n")
    tree.write("top/x.do", "redo-ifchange ../y\ncat ../y\n")
    tree.redo("x", folder="top")
    tree.write("y", "other\n")
    tree.ifchange("x", folder="top")
    tree.check.same("x", tree.read("top/x"), "other\n")
    refused(tree, "../z", "no rule to make ../z", "redo", "../z", folder="top")


def case_rule_that_is_a_folder(tree: Tree) -> None:
    """A folder where a .do file belongs is an error that names it."""
    tree.write("default.do", "echo x\n")
    tree.path("x.do").mkdir()
    refused(tree, "redo", "x.do is a folder", "redo", "x")
    refused(tree, "redo-whichdo", "x.do is a folder", "redo-whichdo", "x")
    tree.check.same("x", tree.read("x"), "(none)")
    tree.redo("y")


def case_rule_that_leads_nowhere(tree: Tree) -> None:
    """A link to nothing where a .do file belongs is an error that names it."""
    tree.files(default__do="echo default\n", y__do="redo-ifchange x\n")
    os.symlink("nothing", tree.path("x.do"))
    for program in ("redo", "redo-whichdo"):
        refused(tree, program, "x.do is a link that leads to no file", program, "x")
    run = tree.run("redo", "y")
    tree.check.same("y: status", run.status, 1)
    tree.check.has("y: message", run.err, "x.do is a link that leads to no file")
    tree.write("nothing", "echo own\n")
    tree.redo("x")
    tree.check.same("x", tree.read("x"), "own\n")


def case_git_ignores_the_state(tree: Tree) -> None:
    """.redo has a .gitignore, which stays as it is if there is one."""
    tree.files(x__do="echo x\n")
    tree.redo("x")
    tree.check.same("made", tree.read(".redo/.gitignore"), "*\n")
    end_server(tree)
    tree.write(".redo/.gitignore", "# mine\n")
    tree.redo("x")
    tree.check.same("kept", tree.read(".redo/.gitignore"), "# mine\n")
    tree.write("other/.redo/.gitignore", "# mine\n")
    tree.write("other/x.do", "echo x\n")
    end_server(tree)
    subprocess.run(["rm", "-r", tree.path(".redo")], check=True)
    tree.redo("x", folder="other")
    tree.check.same("kept as well", tree.read("other/.redo/.gitignore"), "# mine\n")


def case_tree_in_a_tree_from_the_top(tree: Tree) -> None:
    """Below a folder with a .redo of its own nothing is built or depended on: both are named."""
    tree.write("sub/d/x.do", "redo-ifchange src\ncat src\n")
    tree.write("sub/d/src", "one\n")
    tree.files(all__do="redo-ifchange sub/d/x\ncat sub/d/x\n")
    tree.redo("d/x", folder="sub")
    end_server(tree, "sub")
    tree.write("sub/d/src", "other\n")
    both = (str(tree.path(".redo").resolve()), str(tree.path("sub/.redo").resolve()))
    for words in (("redo", "sub/d/x"), ("redo-ifchange", "sub/d/x"), ("redo", "all")):
        run = tree.run(*words)
        tree.check.same(f"{words}: status", run.status, 1)
        for one in both:
            tree.check.has(f"{words}: message", run.err, one)
    tree.check.same("all", tree.read("all"), "(none)")
    subprocess.run(["rm", "-r", tree.path("sub/.redo"), tree.path("sub/d/x")], check=True)
    tree.ifchange("all")
    tree.check.same("without the inner one", tree.read("all"), "other\n")


def case_tree_in_a_tree_from_below(tree: Tree) -> None:
    """In a folder with two .redo above each other every program says so, and does nothing."""
    tree.write("sub/x.do", "echo x\n")
    tree.files(y__do="echo y\n")
    tree.redo("x", folder="sub")
    tree.redo("y")
    both = (str(tree.path(".redo").resolve()), str(tree.path("sub/.redo").resolve()))
    for words in (("redo", "x"), ("redo-ifchange", "x"), ("redo-ood",), ("redo-why", "x")):
        run = tree.run(*words, folder="sub")
        tree.check.same(f"{words}: status", run.status, 1)
        for one in both:
            tree.check.has(f"{words}: message", run.err, one)
    end_server(tree)
    end_server(tree, "sub")
    subprocess.run(["rm", "-r", tree.path(".redo")], check=True)
    tree.ifchange("x", folder="sub")


def case_tree_beside_a_tree(tree: Tree) -> None:
    """A folder with a .redo of its own does no harm where nothing of it is asked for."""
    tree.write("sub/.redo/log", "")
    tree.write("d/x.do", "echo x\n")
    tree.redo("d/x")
    tree.check.same("x", tree.read("d/x"), "x\n")


def case_state_that_is_a_link(tree: Tree) -> None:
    """A .redo that is a link is refused, and nothing is written where it leads to."""
    tree.files(x__do="echo x\n")
    tree.path("elsewhere").mkdir(mode=0o755)
    os.symlink("elsewhere", tree.path(".redo"))
    for words in (("redo", "x"), ("redo-ifchange", "x"), ("redo-ood",), ("redo-log", "x")):
        refused(tree, words[0], "/.redo is a link", *words)
    tree.check.same("elsewhere", os.listdir(tree.path("elsewhere")), [])
    tree.path(".redo").unlink()
    tree.path(".redo").write_text("precious\n")
    refused(tree, "a file", "/.redo is no folder", "redo", "x")
    tree.check.same("kept", tree.read(".redo"), "precious\n")


def case_folders_of_the_state_that_are_links(tree: Tree) -> None:
    """A link in the place of a folder of .redo is refused; where it leads to, nothing changes."""
    for name in ("server", "run", "logs"):
        victim = tree.path(f"{name}-victim")
        victim.mkdir()
        os.chmod(victim, 0o755)
        top = started_tree(tree, f"{name}-tree")
        link_instead(tree, f"{top}/.redo/{name}", victim)
        run = tree.run("redo", "x", folder=top)
        tree.check.same(f"{name}: status", run.status, 1)
        tree.check.has(f"{name}: message", run.err, f"/.redo/{name} is a link")
        tree.check.same(
            f"{name}: victim", (os.listdir(victim), victim.stat().st_mode & 0o777), ([], 0o755)
        )


def case_files_of_the_state_that_are_links(tree: Tree) -> None:
    """A link in the place of a file of .redo is refused; what it leads to stays as it was."""
    for name in ("server/lock", "server/starting", "server/errors", "server/socket", "log"):
        victim = tree.path("precious")
        victim.write_text("precious\n")
        top = started_tree(tree, name.replace("/", "-"))
        link_instead(tree, f"{top}/.redo/{name}", victim)
        for words in (("redo-ood",), ("redo", "x")):
            refused(tree, f"{name}: {words[0]}", f"/.redo/{name} is a link", *words, folder=top)
        tree.check.same(f"{name}: victim", victim.read_text(), "precious\n")


def case_log_of_a_build_that_is_a_link(tree: Tree) -> None:
    """The log of a build isn't written through a link, nor read through one."""
    victim = tree.path("precious")
    victim.write_text("precious\n")
    top = started_tree(tree, "top")
    (log,) = tree.path(f"{top}/.redo/logs").iterdir()
    link_instead(tree, f"{top}/.redo/logs/{log.name}", victim)
    for words in (("redo", "x"), ("redo-log", "x")):
        run = tree.run(*words, folder=top)
        tree.check.same(f"{words}: status", run.status, 1)
        tree.check.has(f"{words}: message", run.err, f"/.redo/logs/{log.name} is a link")
    tree.check.same("victim", victim.read_text(), "precious\n")


def case_state_of_other_kinds(tree: Tree) -> None:
    """A FIFO, a device by a link, a folder, or a file with two names isn't taken for the state."""
    for name in ("server/lock", "server/starting", "server/errors", "log"):
        top = started_tree(tree, name.replace("/", "-"))
        path = tree.path(f"{top}/.redo/{name}")
        path.unlink()
        os.mkfifo(path)
        refused(tree, f"{name}: FIFO", f"/.redo/{name} is no regular file", "redo", "x", folder=top)
        path.unlink()
        path.mkdir()
        refused(tree, f"{name}: folder", f"/.redo/{name} is a folder", "redo", "x", folder=top)
        path.rmdir()
        tree.write("precious", "precious\n")
        os.link(tree.path("precious"), path)
        refused(tree, f"{name}: two", f"/.redo/{name} has 2 names", "redo", "x", folder=top)
        tree.check.same(f"{name}: victim", tree.read("precious"), "precious\n")
        path.unlink()
        os.symlink("/dev/zero", path)
        refused(tree, f"{name}: /dev/zero", f"/.redo/{name} is a link", "redo", "x", folder=top)


def case_new_socket_that_is_a_link(tree: Tree) -> None:
    """What lies in the place of the server's next socket is removed, never followed."""
    top = started_tree(tree, "top")
    tree.write("precious", "precious\n")
    os.symlink(tree.path("precious"), tree.path("top/.redo/server/new"))
    tree.redo("x", folder=top)
    tree.check.same("victim", tree.read("precious"), "precious\n")


def started_tree(tree: Tree, top: str) -> str:
    """Returns the name of a new tree in which `x` was built, and whose server has ended."""
    tree.write(f"{top}/x.do", "echo x\n")
    tree.redo("x", folder=top)
    end_server(tree, top)
    return top


def link_instead(tree: Tree, name: str, target: Path) -> None:
    """Puts a link in the place of a file or a folder."""
    subprocess.run(["rm", "-rf", tree.path(name)], check=True)
    os.symlink(target, tree.path(name))
