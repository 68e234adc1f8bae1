"""What counts as a change: the content of a file, its kind, and its bits of execution."""
import os
import shutil
import subprocess

from trees import Skipped, Tree, end_server, needs

COPY = "echo ran >>ran\nredo-ifchange y\ncat y\n"


def built(tree: Tree, text: str = "AAAA\n") -> None:
    """Builds x from y, whose files are old enough for a cache of what is in them."""
    tree.files(x__do=COPY, y=text)
    tree.ifchange("x")
    tree.ifchange("x")
    tree.check.same("at first", (tree.read("x"), tree.count("ran")), (text, 1))


def follows(tree: Tree, what: str, text: str = "BBBB\n") -> None:
    """Checks that x is built from what y has now."""
    tree.ifchange("x")
    tree.check.same(what, tree.read("x"), text)


def stays(tree: Tree, what: str, folder: str = ".") -> None:
    """Checks that nothing is to be done."""
    run = tree.ifchange("x", folder=folder)
    tree.check.same(what, (run.built, run.err), ([], ""))


def in_place(tree: Tree, name: str, text: str) -> None:
    """Writes to a file without making it anew."""
    with open(tree.path(name), "r+", encoding="utf-8") as file:
        file.write(text)
        file.truncate()


def case_touched(tree: Tree) -> None:
    """A file with another time and the same content hasn't changed, be it source or target."""
    built(tree)
    for name in ("y", "x", "x.do"):
        os.utime(tree.path(name), ns=(1, 2))
        stays(tree, f"touched {name}")
    tree.write("y", "BBBB\n")
    follows(tree, "then an edit")


def case_made_anew(tree: Tree) -> None:
    """A file that was replaced by a copy of it hasn't changed."""
    built(tree)
    for name in ("y", "x"):
        shutil.copyfile(tree.path(name), tree.path("new"))
        os.rename(tree.path("new"), tree.path(name))
        stays(tree, name)
    tree.write("y", "BBBB\n")
    follows(tree, "then an edit")


def case_moved_away_and_back(tree: Tree) -> None:
    """A file that was elsewhere for a while hasn't changed."""
    built(tree)
    for name in ("y", "x"):
        os.rename(tree.path(name), tree.path("away"))
        tree.run("redo-ood")
        os.rename(tree.path("away"), tree.path(name))
        stays(tree, name)


def case_one_byte(tree: Tree) -> None:
    """One byte counts, whatever was done to keep size and times as they were."""
    built(tree)
    before = tree.path("y").stat()
    in_place(tree, "y", "BBBB\n")
    os.utime(tree.path("y"), ns=(before.st_atime_ns, before.st_mtime_ns))
    follows(tree, "in place")
    tree.write("z", "CCCC\n")
    os.utime(tree.path("z"), ns=(before.st_atime_ns, before.st_mtime_ns))
    os.rename(tree.path("z"), tree.path("y"))
    follows(tree, "moved over it", "CCCC\n")


def case_release_with_fixed_times(tree: Tree) -> None:
    """The next release of a source may have the same size and time, and even the same inode."""
    needs("tar")
    for text in ("AAAA\n", "BBBB\n", "CCCC\n", "DDDD\n"):
        tree.write("release/y", text)
        archive = f"{text[0]}.tar"
        tree.run("tar", "--mtime=@1700000000", "-C", "release", "-cf", archive, "y")
    tree.files(x__do=COPY)
    for text in ("AAAA\n", "BBBB\n", "CCCC\n", "DDDD\n"):
        tree.run("tar", "-xf", f"{text[0]}.tar")
        follows(tree, text, text)


def case_edited_at_once(tree: Tree) -> None:
    """An edit right after a build is seen, also where times are coarse."""
    tree.files(x__do=COPY, y="0000\n")
    for number in range(1, 30):
        tree.ifchange("x")
        in_place(tree, "y", f"{number:04}\n")
    follows(tree, "the last one", "0029\n")


def case_times_of_whole_seconds(tree: Tree) -> None:
    """A file system whose times have whole seconds is no exception."""
    if os.getuid() != 0 or shutil.which("mkfs.ext4") is None:
        raise Skipped("only root can mount one, with mkfs.ext4")
    makes = "truncate -s 16M image && mkfs.ext4 -q -F -I 128 image"
    mounts = "mkdir disk && mount -o loop image disk"
    if tree.run("sh", "-c", f"{makes} && {mounts}").status != 0:
        raise Skipped("no loop device")
    try:
        tree.write("disk/x.do", COPY)
        for number in range(12):
            tree.path("disk/y").unlink(missing_ok=True)
            tree.write("disk/y", f"a{number:03}\n")
            tree.ifchange("x", folder="disk")
            in_place(tree, "disk/y", f"b{number:03}\n")
            tree.ifchange("x", folder="disk")
            tree.check.same(f"round {number}", tree.read("disk/x"), f"b{number:03}\n")
        end_server(tree, "disk")
    finally:
        subprocess.run(["umount", "-l", tree.path("disk")], check=True)


def case_bits_of_execution(tree: Tree) -> None:
    """A file that can be executed now has changed; other bits of its mode don't count."""
    built(tree)
    os.chmod(tree.path("y"), 0o600)
    os.chmod(tree.path("x"), 0o600)
    stays(tree, "readable by others")
    os.chmod(tree.path("y"), 0o755)
    tree.ifchange("x")
    tree.check.same("execution", tree.count("ran"), 2)


def case_kind_of_a_file(tree: Tree) -> None:
    """A link to a file of the same content is another file."""
    built(tree)
    os.rename(tree.path("y"), tree.path("z"))
    os.symlink("z", tree.path("y"))
    tree.ifchange("x")
    tree.check.same("link", tree.count("ran"), 2)
    stays(tree, "then nothing")


def case_link_that_comes_back(tree: Tree) -> None:
    """A link has changed if its text or the content that it leads to has."""
    tree.files(x__do=COPY, a="AAAA\n", b="BBBB\n")
    os.symlink("a", tree.path("y"))
    tree.ifchange("x")
    os.utime(tree.path("a"))
    stays(tree, "touched")
    in_place(tree, "a", "CCCC\n")
    follows(tree, "content", "CCCC\n")


def case_link_on_the_way(tree: Tree) -> None:
    """A folder on the way to a name may be a link that is led elsewhere."""
    script = "redo-ifchange current/y\ncat current/y\n"
    tree.files(x__do=script)
    for version in ("v1", "v2"):
        tree.write(f"{version}/y", f"{version}\n")
    os.symlink("v1", tree.path("current"))
    tree.ifchange("x")
    tree.path("current").unlink()
    os.symlink("v2", tree.path("current"))
    tree.check.same("why", tree.run("redo-why", "x").out, "x <- current changed\n")
    follows(tree, "v2", "v2\n")
    os.rename(tree.path("v2"), tree.path("v3"))
    os.symlink("v1", tree.path("v2"))
    follows(tree, "a link in the place of the folder", "v1\n")


def case_copied_tree(tree: Tree) -> None:
    """A copy of a built tree is up to date, and follows its own sources."""
    tree.write("old/x.do", COPY)
    tree.write("old/y", "AAAA\n")
    tree.redo("x", folder="old")
    end_server(tree, "old")
    copies = {"cp": "cp -a old cp", "tar": "mkdir tar && tar -C old -cf - . | tar -C tar -xf -"}
    for name, command in copies.items():
        tree.check.same(command, tree.run("sh", "-c", command).status, 0)
        stays(tree, name, name)
        tree.write(f"{name}/y", "BBBB\n")
        tree.ifchange("x", folder=name)
        tree.check.same(f"{name}: x", tree.read(f"{name}/x"), "BBBB\n")


def case_other_branch_and_back(tree: Tree) -> None:
    """A branch with other sources, and one without a rule, and back: nothing is frozen."""
    needs("git")
    git = "git -c user.name=n -c user.email=e -c init.defaultBranch=main"
    tree.files(x__do=COPY, y="AAAA\n", all__do="redo-ifchange x\n")
    tree.write(".gitignore", ".redo\nx\nran\nall\n")
    tree.run(
        "sh", "-c", f"{git} init -q && {git} add -A && {git} commit -qm 1 && {git} branch other"
    )
    tree.ifchange("all")
    others = f"{git} checkout -q other && echo BBBB >y && {git} rm -q x.do && {git} commit -qam 2"
    tree.run("sh", "-c", others)
    tree.run("sh", "-c", f"{git} checkout -q main")
    run = tree.ifchange("all")
    tree.check.same("there and back", (run.built, run.err, tree.read("x")), ([], "", "AAAA\n"))
    tree.run("sh", "-c", f"{git} checkout -q other")
    tree.ifchange("all")
    tree.run("sh", "-c", f"{git} checkout -q main")
    tree.write("y", "CCCC\n")
    tree.ifchange("all")
    tree.check.same("with a build between", tree.read("x"), "CCCC\n")


def case_everything_touched(tree: Tree) -> None:
    """If all times are others, nothing is built, and the next look is as quick as ever."""
    built(tree)
    for path in tree.folder.iterdir():
        os.utime(path)
    stays(tree, "touched")
    stays(tree, "again")


def case_cache_is_lost(tree: Tree) -> None:
    """What spares reading files again may be lost, or be damaged."""
    built(tree)
    cache = tree.path(".redo/stamps")
    for text in (b"", b"\0" * 100, b"redodb-stamps 1 x\nend 0\n"):
        end_server(tree)
        tree.check.true("there is one", cache.exists())
        cache.write_bytes(text)
        stays(tree, repr(text[:20]))
    end_server(tree)
    cache.unlink()
    tree.write("y", "BBBB\n")
    follows(tree, "without it")
