"""What a target's last build needed is built first: a guess, whose failure may be nobody's."""
from trees import Tree


def guessing(tree: Tree) -> None:
    """Builds x, which needs n while m says so, and then breaks n."""
    tree.files(
        x__do='redo-ifchange m\n[ "$(cat m)" = off ] || redo-ifchange n\necho x\n',
        y__do="redo-ifchange m n\n",
        m__do="redo-ifchange switch\ncat switch\n",
        n__do="redo-ifchange s\ngrep good s\n",
        switch="on\n",
        s="good\n",
    )
    tree.ifchange("x")
    tree.write("s", "broken\n")


def about(name: str, lines: list[str]) -> list[str]:
    """Returns the lines of redo's own about a name."""
    return [line for line in lines if line.startswith(f"redo: {name}")]


def case_guess_that_fails_and_is_not_asked_for(tree: Tree) -> None:
    """A guess that fails is nobody's failure if no script asks for it."""
    for words in (["redo-ifchange", "x"], ["redo", "-k", "all"], ["redo", "-j3", "all"]):
        guessing(tree)
        tree.write("all.do", "redo-ifchange x\n")
        tree.write("switch", "off\n")
        run = tree.run(*words)
        tree.check.same(f"{words}: status", (run.status, tree.read("x")), (0, "x\n"))
        tree.check.true(f"{words}: n was tried", "n" in run.built)
        tree.check.same(f"{words}: lines", about("n", run.lines), [])
        tree.check.same(f"{words}: log", about("n", tree.run("redo-log", "x").out.split("\n")), [])
        tree.path("x").unlink()
        tree.write("switch", "on once more\n")
        tree.write("s", "good\n")


def case_guess_that_fails_and_is_asked_for(tree: Tree) -> None:
    """A guess that fails is told of when a script asks for it, and shortly when one does again."""
    guessing(tree)
    tree.write("switch", "on once more\n")
    tree.write("all.do", "redo-ifchange x y\n")
    run = tree.run("redo", "-k", "all")
    tree.check.same("status", run.status, 1)
    tree.check.same("lines", about("n", run.lines), ["redo: n: status 1", "redo: n failed before"])
    tree.check.same("once", run.built.count("n"), 1)


def case_guess_that_fails_and_is_the_users(tree: Tree) -> None:
    """A guess that fails is told of when the user asks for it."""
    guessing(tree)
    tree.write("switch", "off\n")
    run = tree.run("redo-ifchange", "x", "n")
    tree.check.same("status", run.status, 1)
    tree.check.same("lines", about("n", run.lines), ["redo: n: status 1"])
    tree.check.same("x", tree.read("x"), "x\n")


def case_guess_that_cannot_run(tree: Tree) -> None:
    """The same of a guess whose script can't be run."""
    guessing(tree)
    tree.write("n.do", "#!/no/such/program\n")
    tree.write("switch", "off\n")
    run = tree.ifchange("x")
    tree.check.same("lines", about("n", run.lines), [])
    tree.check.same("x", tree.read("x"), "x\n")


def case_guess_closes_no_ring(tree: Tree) -> None:
    """What a target needed may need that target now: the former need makes no ring."""
    script = 'redo-ifchange cfg\nif grep -q "%s needs %s" cfg; then redo-ifchange %s; fi\necho %s\n'
    tree.files(
        cfg__do="redo-ifchange src\ncat src\nredo-stamp <src\n",
        a__do=script % ("a", "n", "n", "a"),
        n__do=script % ("n", "a", "a", "n"),
        all__do="redo-ifchange a n\n",
    )
    tree.write("src", "a needs n\n")
    tree.ifchange("all")
    for number, jobs in enumerate(("-j1", "-j2", "-j8")):
        for needs in ("n needs a", "a needs n"):
            tree.write("src", f"{needs}, {number}\n")
            run = tree.redo(jobs, "all")
            tree.check.same(f"{jobs}, {needs}: built", sorted(run.built), ["a", "all", "cfg", "n"])
            tree.check.same(f"{jobs}, {needs}: nothing", tree.ifchange("all").built, [])
