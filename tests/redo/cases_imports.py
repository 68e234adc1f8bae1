"""A working folder with files that have the names of modules: no program takes one of them."""
import sys

from trees import TOP, Tree, ended, needs

MODULES = sorted(sys.stdlib_module_names - {"this", "antigravity"})
OWN = ("redodb", "redodb/redo", "redodb/server", "redodb/record", "redodb/picture")
ENVIRONMENTS: tuple[dict[str, str], ...] = (
    {},
    {"PYTHONPATH": ":"},
    {"PYTHONPATH": ".", "PYTHONUSERBASE": "."},
    {"PYTHONSAFEPATH": "1", "PYTHONSTARTUP": "os.py"},
)
ASKING = ("redo-ood", "redo-targets", "redo-sources")


def hostile(tree: Tree, folder: str) -> None:
    """Writes modules of these names that note that they ran, and end the program."""
    ran = str(tree.path("RAN"))
    for name in (*MODULES, "sitecustomize", "usercustomize", *(f"{name}/__init__" for name in OWN)):
        text = f"open({ran!r}, 'a').write({name!r} + chr(10))\nraise SystemExit(9)\n"
        tree.write(f"{folder}/{name}.py", text)
    for name in OWN:
        tree.write(f"{folder}/{name}/__main__.py", tree.read(f"{folder}/{name}/__init__.py"))


def case_imports_of_redo(tree: Tree) -> None:
    """redo, the programs in its scripts, the server and all questions."""
    for number, environment in enumerate(ENVIRONMENTS):
        folder = f"tree{number}"
        hostile(tree, folder)
        script = "redo-ifchange b\nredo-ifcreate none\necho a | redo-stamp\nredo c\ncat b\n"
        tree.write(f"{folder}/a.do", script)
        tree.write(f"{folder}/b.do", "redo-always\necho b\n")
        tree.write(f"{folder}/c.do", "echo c\n")
        tree.redo("a", folder=folder, environment=environment)
        tree.ifchange("a", folder=folder, environment=environment)
        for words in (["redo-whichdo", "a"], ["redo-why", "--json", "a"], ["redo-log", "a"]):
            run = tree.run(*words, folder=folder, environment=environment)
            tree.check.same(f"{words}, {environment}", (run.status, run.err), (0, ""))
        for program in ASKING:
            run = tree.run(program, folder=folder, environment=environment)
            tree.check.same(f"{program}, {environment}", (run.status, run.err), (0, ""))
    tree.check.same("what ran", tree.read("RAN"), "(none)")


def case_imports_of_redodb(tree: Tree) -> None:
    """redodb serve, record and picture."""
    needs("make")
    tree.files(Makefile="a: b\n\tcp b a\n", b="b\n", x__d="x.o: x.c\n", history="history 0\n")
    hostile(tree, ".")
    for environment in ENVIRONMENTS:
        for words in (
            ["record", "depfiles", "."],
            ["record", "make", "."],
            ["picture", "run", "history"],
        ):
            run = tree.run(str(TOP / "redodb"), *words, environment=environment)
            tree.check.same(f"{words}, {environment}", (run.status, run.err), (0, ""))
    tree.check.same("what ran", tree.read("RAN"), "(none)")


def case_imports_of_serve(tree: Tree) -> None:
    """redodb serve."""
    hostile(tree, ".")
    for number, environment in enumerate(ENVIRONMENTS):
        tree.path(f"top{number}").mkdir()
        words = ["serve", "--top", f"top{number}"]
        process = tree.start(str(TOP / "redodb"), *words, environment=environment)
        socket = tree.path(f"top{number}/.redo/server/socket")
        tree.until("it listens", lambda: socket.exists() or process.poll() is not None)
        process.terminate()
        tree.check.same(f"{environment}: errors", ended(process).err, "")
        tree.check.true(f"{environment}: it listened", socket.parent.exists())
    tree.check.same("what ran", tree.read("RAN"), "(none)")
