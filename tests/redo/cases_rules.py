"""Which .do file builds a target, and how it is run."""
from trees import Tree

ARGUMENTS = 'printf "%s|%s|%s|%s\\n" "$1" "$2" "${3##*/}" "$PWD" >"$3"\n'


def case_own_do_file(tree: Tree) -> None:
    """T.do builds T; its $1 and $2 are both T."""
    tree.files(a__b__do=ARGUMENTS)
    tree.redo("a.b")
    tree.same_words("a.b", "a.b", "a.b", ".")


def case_default_do_file(tree: Tree) -> None:
    """default.EXT.do builds what has the extension; $2 is the name without it."""
    tree.files(default__c__do=ARGUMENTS)
    tree.redo("a.b.c")
    tree.same_words("a.b.c", "a.b.c", "a.b", ".")


def case_longest_extension_wins(tree: Tree) -> None:
    """In a folder, T.do wins, and then the default file with the longest extension."""
    tree.files(default__do="echo none\n", default__c__do="echo c\n", default__b__c__do="echo b.c\n")
    for target, wanted in (("x.b.c", "b.c\n"), ("x.c", "c\n"), ("x.d", "none\n"), ("x", "none\n")):
        tree.redo(target)
        tree.check.same(target, tree.read(target), wanted)
    tree.write("x.b.c.do", "echo own\n")
    tree.redo("x.b.c")
    tree.check.same("own", tree.read("x.b.c"), "own\n")


def case_folders_upwards(tree: Tree) -> None:
    """Default files are looked for in the folders upwards, each folder's before those above."""
    tree.write("default.o.do", ARGUMENTS)
    tree.path("d/e").mkdir(parents=True)
    tree.redo("d/e/x.o")
    tree.same_words("d/e/x.o", "d/e/x.o", "d/e/x", ".")
    tree.write("d/default.do", ARGUMENTS)
    tree.redo("d/e/x.o")
    tree.same_words("d/e/x.o", "e/x.o", "e/x.o", "d")


def case_own_do_file_in_its_folder_alone(tree: Tree) -> None:
    """T.do isn't looked for in the folders above that of T."""
    tree.path("d").mkdir()
    tree.files(x__do="echo wrong\n")
    run = tree.run("redo", "d/x")
    tree.check.same("status", run.status, 1)
    tree.check.has("message", run.err, "no rule to make d/x")


def case_appearing_do_file(tree: Tree) -> None:
    """A target is out of date if a .do file appears that would win, or its own is edited."""
    tree.files(default__do="echo old\n")
    tree.redo("x.c")
    tree.write("default.c.do", "echo new\n")
    tree.ifchange("x.c")
    tree.check.same("appeared", tree.read("x.c"), "new\n")
    tree.write("default.c.do", "echo newer\n")
    tree.ifchange("x.c")
    tree.check.same("edited", tree.read("x.c"), "newer\n")
    tree.check.same("then nothing", tree.ifchange("x.c").built, [])


def case_working_folder(tree: Tree) -> None:
    """Targets are named from the working folder; the script runs in the folder of its .do file."""
    tree.write("d/x.do", ARGUMENTS)
    tree.redo("x", folder="d")
    tree.same_words("d/x", "x", "x", "d")
    tree.redo("../d/x", folder="d")
    tree.same_words("d/x", "x", "x", "d")


def case_all_is_the_default(tree: Tree) -> None:
    """Without a target, `redo` builds `all`."""
    tree.files(all__do="echo built >mark\n")
    run = tree.redo()
    tree.check.same("built", (run.built, tree.read("mark")), (["all"], "built\n"))


def case_interpreter(tree: Tree) -> None:
    """A .do file with a `#!` line is run by that program."""
    tree.files(
        x__do='#!/usr/bin/env python3\nimport sys\nopen(sys.argv[3], "w").write("python\\n")\n'
    )
    tree.redo("x")
    tree.check.same("x", tree.read("x"), "python\n")


def case_missing_interpreter(tree: Tree) -> None:
    """If that program is missing, the build fails and says so."""
    tree.files(x__do="#!/nothing/here\n")
    run = tree.run("redo", "x")
    tree.check.same("status", run.status, 1)
    tree.check.has("message", run.err, "No such file")
    tree.check.same("left over", tree.left_over(), [])


def case_shell_flags(tree: Tree) -> None:
    """Scripts run with `sh -e`; -x adds x, so that commands are printed."""
    tree.files(x__do="false\necho not here\n", y__do="echo here >&2\n")
    tree.check.same("-e", tree.run("redo", "x").status, 1)
    run = tree.redo("-x", "y")
    tree.check.true("-x", "+ echo here" in run.lines)
    run = tree.redo("-v", "y")
    tree.check.true("-v", "echo here >&2" in run.lines)
    tree.check.same("none", [line for line in tree.redo("y").lines if "echo" in line], [])


def case_standard_input(tree: Tree) -> None:
    """Standard input of scripts is empty."""
    tree.files(x__do='echo "<$(cat)>"\n')
    tree.redo("x")
    tree.check.same("x", tree.read("x"), "<>\n")


def case_surroundings_of_the_asker(tree: Tree) -> None:
    """A script has the environment, umask and limits of whoever asks: of a script, or of the user.

    They are no reason to build, and nobody else has them.
    """
    tree.files(
        y__do='echo "$WORD $(umask) $(ulimit -S -n)"\n',
        x__do="WORD=mine\nexport WORD\numask 027\nulimit -S -n 50\nredo-ifchange y\n",
        z__do="redo-ifchange y x\n" + 'echo "$WORD $(umask) $(ulimit -S -n)"\n',
    )
    users = "WORD='%s'; export WORD; umask %s; ulimit -S -n %s; exec redo-ifchange -- %s"
    tree.run("sh", "-c", users % ("the user", "002", 60, "x z"))
    tree.check.same("of a script", tree.read("y"), "mine 0027 50\n")
    tree.check.same("its file", tree.path("y").stat().st_mode & 0o777, 0o640)
    tree.check.same("of the user", tree.read("z"), "the user 0002 60\n")
    tree.run("sh", "-c", users % ("the next", "022", 70, "y"))
    tree.check.same("no reason to build", tree.read("y"), "mine 0027 50\n")
    tree.path("y").unlink()
    tree.run("sh", "-c", users % ("the next", "022", 70, "y"))
    tree.check.same("of the next user", tree.read("y"), "the next 0022 70\n")
    tree.check.same("its file, too", tree.path("y").stat().st_mode & 0o777, 0o644)


def case_surroundings_of_a_guess(tree: Tree) -> None:
    """What is built as a guess has them from whoever asked for the target that needed it."""
    tree.files(
        y__do='redo-ifchange src\necho "$WORD"\n',
        x__do="WORD=mine\nexport WORD\nredo-ifchange y\n",
        src="1\n",
    )
    tree.ifchange("x", environment={"WORD": "the user's"})
    tree.check.same("at first", tree.read("y"), "mine\n")
    tree.write("src", "2\n")
    tree.ifchange("x", environment={"WORD": "the user's"})
    tree.check.same("as a guess", tree.read("y"), "the user's\n")


def case_folder_without_a_rule(tree: Tree) -> None:
    """To redo a folder that no rule makes is no error, and is told of."""
    tree.path("d").mkdir()
    for name in ("d", ".", "d/"):
        run = tree.redo(name)
        tree.check.has(name, run.err, "is a folder, and there is no rule to make it")
    tree.files(x__do="redo d\n", y__do="redo-ifchange d\n")
    tree.check.same("in scripts", tree.redo("x", "y").lines, ["redo  x", "redo  y"])
