"""How the output of a script becomes the target."""
import os
import re

from trees import Tree


def case_standard_output(tree: Tree) -> None:
    """What a script writes to standard output becomes the target."""
    tree.files(x__do="echo one\necho two\n")
    tree.redo("x")
    tree.check.same("x", tree.read("x"), "one\ntwo\n")
    tree.check.same("left over", tree.left_over(), [])


def case_third_argument(tree: Tree) -> None:
    """What a script writes to $3 becomes the target, with its mode."""
    tree.files(x__do='echo \'#!/bin/sh\' >"$3"\nchmod 755 "$3"\n')
    tree.redo("x")
    tree.check.same("x", tree.read("x"), "#!/bin/sh\n")
    tree.check.same("mode", tree.path("x").stat().st_mode & 0o777, 0o755)
    tree.check.same("left over", tree.left_over(), [])


def case_both(tree: Tree) -> None:
    """Both of them is an error, and the target stays as it was."""
    tree.files(x__do="echo old\n")
    tree.redo("x")
    tree.files(x__do='echo one\necho two >"$3"\n')
    run = tree.run("redo", "x")
    tree.check.same("status", run.status, 1)
    tree.check.has("message", run.err, "x.do wrote to standard output and made $3")
    tree.check.same("x", tree.read("x"), "old\n")
    tree.check.same("left over", tree.left_over(), [])


def case_neither(tree: Tree) -> None:
    """Without output there is no file; the target is right all the same."""
    tree.files(x__do="echo ran >>ran\n")
    tree.redo("x")
    tree.check.same("no file", tree.path("x").exists(), False)
    tree.ifchange("x")
    tree.check.same("ran", tree.count("ran"), 1)


def case_output_that_ends(tree: Tree) -> None:
    """A target that has no output any more has no file any more."""
    tree.files(x__do="echo text\n")
    tree.redo("x")
    tree.files(x__do=":\n")
    tree.redo("x")
    tree.check.same("no file", tree.path("x").exists(), False)


def case_empty_file(tree: Tree) -> None:
    """An empty $3 makes an empty target."""
    tree.files(x__do=': >"$3"\n')
    tree.redo("x")
    tree.check.same("x", tree.read("x"), "")


def case_first_argument(tree: Tree) -> None:
    """A script that writes $1 itself fails."""
    tree.files(x__do='echo text >"$1"\n')
    run = tree.run("redo", "x")
    tree.check.same("status", run.status, 1)
    tree.check.has("message", run.err, "x.do wrote $1 itself")


def case_failure_keeps_the_target(tree: Tree) -> None:
    """A script that fails leaves the target as it was, and nothing beside it."""
    tree.files(x__do="echo old\n")
    tree.redo("x")
    tree.files(x__do='echo new\necho newer >"$3"\nexit 3\n')
    run = tree.run("redo", "x")
    tree.check.same("status", run.status, 1)
    tree.check.has("message", run.err, "x: status 3")
    tree.check.same("x", tree.read("x"), "old\n")
    tree.check.same("left over", tree.left_over(), [])


def case_all_at_once(tree: Tree) -> None:
    """The target is renamed into its place: who has the old one open still reads it whole."""
    tree.files(x__do="seq 1 5000\n")
    tree.redo("x")
    with open(tree.path("x"), encoding="ascii") as old:
        tree.files(x__do="seq 1 10\n")
        tree.redo("x")
        tree.check.same("old one", len(old.readlines()), 5000)
    tree.check.same("new one", tree.count("x"), 10)


def case_folder_of_the_target(tree: Tree) -> None:
    """A script can make the folder of its target; $3 is in the nearest one that is there."""
    tree.files(default__o__do='mkdir -p "$(dirname "$1")"\necho "$3" >"$3"\n')
    tree.redo("d/e/x.o")
    tree.check.true("x.o", re.fullmatch(r"d__e__x\.o\.redo\.1-\w{8}\.tmp\n", tree.read("d/e/x.o")))
    tree.check.same("left over", tree.left_over(), [])


def case_missing_folder(tree: Tree) -> None:
    """If nobody makes that folder, the build fails and leaves nothing."""
    tree.files(default__o__do="echo text\n")
    run = tree.run("redo", "d/x.o")
    tree.check.same("status", run.status, 1)
    tree.check.has("message", run.err, "d/x.o: No such file or directory")
    tree.check.same("left over", tree.left_over(), [])


def case_folder_as_target(tree: Tree) -> None:
    """$3 can be a folder, which takes the place of the former one."""
    tree.files(x__do='mkdir "$3"\ndate +%N >"$3/$(cat name)"\nredo-ifchange name\n', name="a")
    tree.redo("x")
    tree.write("name", "b")
    tree.ifchange("x")
    tree.check.same("x", os.listdir(tree.path("x")), ["b"])
    tree.check.same("left over", tree.left_over(), [])


def case_folder_that_is_there(tree: Tree) -> None:
    """A folder that no build made is a target if a rule matches: its script may fill it."""
    tree.files(default__dir__do='mkdir -p "$1"\ntouch "$1/made"\n')
    for program in ("redo", "redo-ifchange"):
        name = f"{program}.dir"
        tree.path(name).mkdir()
        tree.check.same("status", tree.run(program, name).status, 0)
        tree.check.same(name, os.listdir(tree.path(name)), ["made"])
