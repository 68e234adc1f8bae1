"""A built tree from a cache: it was kept while a server ran, and is restored somewhere else."""
import shutil

from trees import Tree, needs

KEEP = "tar -C old -cf cache.tar ."
SHARED = "/bin/sh"
"""A file outside of each tree, which scripts name by its absolute path."""


def kept_tree(tree: Tree) -> None:
    """Builds `old`, and keeps it in an archive while its server runs."""
    needs("tar")
    tree.write("old/all.do", "redo-ifchange d/x.out z\n")
    tree.write("old/default.out.do", f'redo-ifchange "$2.in" {SHARED}\ncat "$2.in"\n')
    tree.write("old/z.do", "echo z\n")
    tree.write("old/d/x.in", "one\n")
    tree.redo("all", folder="old")
    tree.run("sh", "-c", KEEP)


def restored(tree: Tree, folder: str, *words: str) -> None:
    """Restores the tree in a folder, by these words of tar."""
    tree.path(folder).mkdir(parents=True)
    run = tree.run("tar", "-C", folder, "-xf", "cache.tar", *words)
    tree.check.same(f"{folder}: tar", (run.status, run.err), (0, ""))


def follows(tree: Tree, folder: str) -> None:
    """Nothing is to do, and then what follows from an edit."""
    run = tree.ifchange("all", folder=folder)
    tree.check.same(f"{folder}: built", (run.built, run.err), ([], ""))
    tree.write(f"{folder}/d/x.in", "other\n")
    tree.check.same(f"{folder}: edited", tree.ifchange("all", folder=folder).built[0], "d/x.out")
    tree.check.same(f"{folder}: x", tree.read(f"{folder}/d/x.out"), "other\n")


def case_restored_at_another_path(tree: Tree) -> None:
    """In a folder of the same depth nothing is built, whatever times the files have."""
    kept_tree(tree)
    restored(tree, "new")
    follows(tree, "new")
    restored(tree, "touched", "--touch")
    follows(tree, "touched")
    tree.run("cp", "-a", "old", "copy")
    follows(tree, "copy")


def case_restored_at_the_same_path(tree: Tree) -> None:
    """In the folder itself, of which the files had other inodes, nothing is built."""
    kept_tree(tree)
    tree.path("old").rename(tree.path("away"))
    restored(tree, "old")
    follows(tree, "old")


def case_restored_log_alone(tree: Tree) -> None:
    """Of .redo, the log is enough."""
    kept_tree(tree)
    left_out = ("server", "run", "logs", "stamps", "clean")
    restored(tree, "new", *(f"--exclude=./.redo/{name}" for name in left_out))
    follows(tree, "new")


def case_restored_at_another_depth(tree: Tree) -> None:
    """A name outside has as many `..` as the tree is deep: elsewhere what needs it is built."""
    kept_tree(tree)
    restored(tree, "a/b/new")
    built = tree.ifchange("all", folder="a/b/new").built
    tree.check.same("built", built, ["d/x.out"])
    follows(tree, "a/b/new")


def case_restored_without_its_targets(tree: Tree) -> None:
    """Targets that the cache lacks are built, and no others."""
    kept_tree(tree)
    restored(tree, "new", "--exclude=*.out")
    tree.check.same("built", tree.ifchange("all", folder="new").built, ["d/x.out"])
    tree.check.same("x", tree.read("new/d/x.out"), "one\n")


def case_restored_over_newer_sources(tree: Tree) -> None:
    """A cache that lacks the sources has what differs built, by content."""
    kept_tree(tree)
    restored(tree, "new", "--exclude=*.in")
    tree.write("new/d/x.in", "one\n")
    follows(tree, "new")
    shutil.rmtree(tree.path("new"))
    restored(tree, "new", "--exclude=*.in")
    tree.write("new/d/x.in", "other\n")
    tree.check.same("built", tree.ifchange("all", folder="new").built, ["d/x.out", "all"])
