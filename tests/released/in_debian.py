"""The files of a release, in a bare Debian 12, and its tarball in a bare Debian 11."""
import shutil
import time
from pathlib import Path

from released import bare
from released.bare import FILES, HOME, Bare
from released.counting import TARBALL, TOP, VERSION, WHEEL, Tests, said

DEBS = TOP / "out/debs"
FORMER = "0.0.1"
"""The version of the package that is upgraded: the same files, packed again with this number."""
PYTHON_REDO = "7faee45a"
"""The commit of the last version whose redo was Python."""
TREE = f"""\
mkdir {HOME}/tree && cd {HOME}/tree
echo 'redo-ifchange part' >all.do
echo 'redo-ifchange source; tr a-z A-Z <source' >part.do
echo text >source
"""
QUIETLY = f">{FILES}/log 2>&1"
BUILT = "redo  all\nredo    part\n"
NAMES = sorted(path.name for path in (TOP / "bin").iterdir())
EMBEDDED = "1 end => ok"


def installed(tests: Tests, debian: Bare) -> None:
    """redodb alone: it builds a tree without any Python, and goes without a trace."""
    before = debian.paths()
    tests.same("no Python", debian.said("command -v python3 || echo none"), (0, "none\n"))
    begun = time.monotonic()
    command = f"apt-get install -qq -y {FILES}/redodb_{VERSION}_amd64.deb {QUIETLY}\n{TREE}redo"
    tests.same("install and build", debian.said(command), (0, BUILT))
    print(f"from apt-get install to the built tree: {time.monotonic() - begun:.1f} s", flush=True)
    tree = f"cd {HOME}/tree; "
    tests.same("nothing to do", debian.said(tree + "redo-ifchange all"), (0, ""))
    edit = tree + "echo more >source; redo-why all; redo; cat part"
    answer = f"all <- part <- source changed\n{BUILT}MORE\n"
    tests.same("an edit", debian.said(edit), (0, answer))
    tests.same("redodb-live", debian.said("redodb-live --version"), (0, f"redodb-live {VERSION}\n"))
    words = "cd /usr/share/doc/redodb/examples; redodb <first.redo | head -n 1"
    tests.same("redodb", debian.said(words), (0, "history 7\n"))
    word = debian.said("redodb record ninja . || echo $?")
    line = "redodb: record: the package python3-redodb has this word\n2\n"
    tests.same("a word of Python", word, (0, line))
    library = debian.said("ldconfig -p | grep -c libredodb.so.0")
    tests.same("ldconfig knows the library", library, (0, "1\n"))
    purge = f"rm -r {HOME}/tree; apt-get purge -qq -y redodb {QUIETLY} || cat {FILES}/log"
    tests.same("purge", debian.said(purge), (0, ""))
    tests.same("purge leaves nothing", sorted(debian.paths() - before), [])
    tests.same("purge takes nothing", sorted(before - debian.paths()), [])


def upgraded(tests: Tests, debian: Bare, made: Path, folder: Path) -> None:
    """A tree that was built by the version before goes on."""
    tree = folder / "former"
    package = made / f"redodb_{VERSION}_amd64.deb"
    said(["dpkg-deb", "-R", package, tree])
    control = tree / "DEBIAN/control"
    control.write_text(control.read_text().replace(f"Version: {VERSION}", f"Version: {FORMER}"))
    said(["dpkg-deb", "-b", tree, debian.files / "former.deb"])
    old = f"apt-get install -qq -y {FILES}/former.deb {QUIETLY}\n{TREE}redo"
    tests.same("the version before", debian.said(old), (0, BUILT))
    new = f"apt-get install -qq -y {FILES}/{package.name} {QUIETLY}; dpkg-query -W redodb; "
    go_on = f"cd {HOME}/tree; redo-ifchange all; redo-why all; redo-ood; echo x >source; redo"
    answer = f"redodb\t{VERSION}\nall is up to date\n{BUILT}"
    tests.same("upgrade", debian.said(new + go_on), (0, answer))


def goes_on(tests: Tests, debian: Bare, folder: Path) -> None:
    """A tree with a log that the last redo in Python left: all is built once, as CHANGELOG says."""
    if said(["git", "cat-file", "-e", PYTHON_REDO])[0]:
        tests.skip("a tree of the version before", "the history isn't here")
        return
    old, tree, here = folder / "old", folder / "old-tree", debian.folder / f"{HOME}/old".lstrip("/")
    old.mkdir()
    said(["sh", "-c", f"git archive {PYTHON_REDO} bin python redodb | tar -xf - -C '{old}'"])
    make = TREE.replace(f"{HOME}/tree", f"'{tree}'")
    words = ["sh", "-ec", f"{make}'{old}/bin/redo'"]
    status, _ = said(words, REDODB_LIVE=str(TOP / "redodb-live"))
    tests.same("redo of the version before", (status, (tree / "part").read_text()), (0, "TEXT\n"))
    shutil.copytree(tree, here, ignore=shutil.ignore_patterns("server"))
    command = f"cd {HOME}/old; redo-ifchange all; echo then; redo-ifchange all; redo-ood"
    tests.same("goes on", debian.said(command), (0, f"{BUILT}then\n"))
    log = (tree / ".redo/log").read_bytes()
    tests.same("its log", (here / ".redo/log").read_bytes().startswith(log), True)


def compiled(tests: Tests, debian: Bare) -> None:
    """hello and a C program, with the compiler of Debian; pages of the manual."""
    names = "gcc libc6-dev pkg-config man-db"
    get = f"apt-get update -qq; apt-get install -qq -y --no-install-recommends {names}"
    dev = f"apt-get install -qq -y {FILES}/libredodb-dev_{VERSION}_amd64.deb"
    command = f"{{ {get} && {dev}; }} {QUIETLY} || cat {FILES}/log"
    tests.same("a compiler", debian.said(command, network=True), (0, ""))
    copied = f"cp -r /usr/share/doc/redodb/examples/hello {HOME}; cd {HOME}/hello; "
    hello = f"{copied}redo 2>&1; ./hello"
    built = "redo  all\nredo    hello\nredo      hello.o\n"
    status, text = debian.said(hello)
    tests.same("hello", (status, text[: len(built)], len(text) > len(built)), (0, built, True))
    edit = f"cd {HOME}/hello; echo '#define GREETING \"good morning\"' >greeting.h; redo-why all"
    tests.same(
        "redo-why", debian.said(edit), (0, "all <- hello <- hello.o <- greeting.h changed\n")
    )
    source = "/usr/share/doc/libredodb-dev/examples/main.c"
    for flags in ("", "-static"):
        words = f"cc {flags} {source} $(pkg-config --cflags --libs redodb) -o {FILES}/main"
        answer = debian.said(f"{words}; {FILES}/main | tail -n 1")
        tests.same(f"cc with pkg-config {flags}", answer, (0, f"{EMBEDDED}\n"))
    linked = f"cc {source} -lredodb -o {FILES}/main; "
    needed = f"{linked}objdump -p {FILES}/main | grep -o libredodb.*"
    tests.same("the soname", debian.said(needed), (0, "libredodb.so.0\n"))
    for name in [*NAMES, "redodb", "redodb-live"]:
        page = debian.said(f"MANWIDTH=80 man {name} | grep -c {name}")
        tests.same(f"man {name}", (page[0], page[1] > "0"), (0, True))
    found = debian.said("mandb -q; apropos redo | cut -d ' ' -f 1 | sort")
    tests.same(
        "apropos redo", set([*NAMES, "redodb", "redodb-live"]) - set(found[1].split()), set()
    )


def from_python(tests: Tests, debian: Bare) -> None:
    """The package of Debian, and the wheel in an environment of its own, without a network."""
    names = f"{FILES}/python3-redodb_{VERSION}_all.deb python3-venv"
    get = f"apt-get install -qq -y --no-install-recommends {names} {QUIETLY} || cat {FILES}/log"
    tests.same("Python", debian.said(get, network=True), (0, ""))
    database = "with redodb.Database() as d: d.file('a', '1'); print(d.ood())"
    words = f"import redodb; print(redodb.__version__)\n{database}"
    answer = (0, f"{VERSION}\nNames(names=())\n")
    tests.same("import redodb", debian.said(f'python3 -c "{words}"'), answer)
    client = f'{TREE}redo; python3 -c "import redodb\nwith redodb.Client() as c: print(c.ood())"'
    status, text = debian.said(f"rm -rf {HOME}/tree; {client}")
    tests.same("a client", (status, text), (0, f"{BUILT}Names(names=())\n"))
    usage = debian.said("redodb record --help | head -n 1; redodb picture --help | head -n 1")[1]
    tests.same("words", [line[:13] for line in usage.splitlines()], ["usage: redodb"] * 2)
    own = f"{FILES}/own"
    pip = f"{own}/bin/pip install -q --no-index {FILES}/{WHEEL}"
    venv = f"python3 -m venv {own}; {pip}; cd {own}"
    typed = "from importlib.resources import files; print((files('redodb') / 'py.typed').is_file())"
    program = f'bin/python -c "{words}"; bin/python -c "{typed}"; bin/python -m redodb --version'
    tests.same(
        "the wheel",
        debian.said(f"{venv}; {program}"),
        (0, f"{answer[1]}True\nredodb {VERSION}\n"),
    )


def purged(tests: Tests, debian: Bare) -> None:
    """All packages at once."""
    names = "python3-redodb libredodb-dev redodb"
    purge = f"rm -r {HOME}/*; apt-get purge -qq -y {names} {QUIETLY} || cat {FILES}/log"
    tests.same("purge all", debian.said(purge), (0, ""))
    left = sorted(path for path in debian.paths() if "redo" in path)
    tests.same("nothing is left", left, [])


def debian_12(tests: Tests, made: Path, folder: Path) -> None:
    """The packages, in a bare Debian 12."""
    debian = Bare(folder / "bookworm", made, DEBS / "bookworm")
    cause = debian.made("bookworm")
    if cause:
        tests.skip("Debian 12", cause)
        return
    installed(tests, debian)
    upgraded(tests, debian, made, folder)
    goes_on(tests, debian, folder)
    compiled(tests, debian)
    from_python(tests, debian)
    purged(tests, debian)


def debian_11(tests: Tests, made: Path, folder: Path) -> None:
    """The tarball, with glibc 2.31."""
    debian = Bare(folder / "bullseye", made, DEBS / "bullseye")
    cause = debian.made("bullseye")
    if cause:
        tests.skip("Debian 11", cause)
        return
    glibc = debian.said("ldd --version | head -n 1 | grep -o '[0-9.]*$'")
    tests.same("glibc", glibc, (0, "2.31\n"))
    path = f"tar -xf {FILES}/{TARBALL}.tar.gz -C /opt; PATH=/opt/{TARBALL}/bin:$PATH\n"
    tests.same("the tarball", debian.said(f"{path}{TREE}redo; redo-ifchange all"), (0, BUILT))
    words = f"cd /opt/{TARBALL}; bin/redodb run examples/first.redo | head -n 1"
    words += "; echo '1 ood' | bin/redodb-live"
    answer = f"history 7\nredodb-live {VERSION} restored 0\n1 ood => ood\n"
    tests.same("the database", debian.said(words), (0, answer))


def bare_ones(tests: Tests, made: Path, folder: Path) -> None:
    cause = bare.lacks()
    if cause:
        tests.skip("bare Debians", cause)
        return
    debian_12(tests, made, folder)
    debian_11(tests, made, folder)
