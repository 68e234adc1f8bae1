"""The TAB key in bash, zsh and fish: a name is one word, whatever is in it, and nothing of it runs.

Each shell runs on a terminal, in a folder that has one target, or one file. The programs are
functions there that write down their words.
"""
import os
import pty
import select
import shlex
import signal
import time
from pathlib import Path

from trees import TOP, Tree, needs

NAMES = (
    "plain",
    "two words",
    "quote's",
    'double"quote',
    "$(touch PWNED)",
    "`touch PWNED`",
    "${HOME}",
    "a;touch PWNED",
    "a&touch PWNED",
    "a|touch PWNED",
    ">PWNED",
    "(touch PWNED)",
    "*",
    "[a-z]?",
    "{a,b}",
    "~",
    "~root",
    "tab\there",
    "back\\slash",
    "two\nlines",
    "-x",
    "--no-log",
    "#note",
    "!!",
    "a=b:c",
    " ",
    "ends with a blank ",
    "gr\u00fc\u00dfe",
)
BEGUN = ("two\\ w", "'two w", '"two w')
PROGRAMS = "redo redo-why redo-ifcreate"
BASH = """
set +o history
source {completion}
for program in {programs}; do
    eval "$program() {{ note \\"\\$@\\"; }}"
done
note() {{ printf '%s\\0' "$@" >>{out}; printf '\\1' >>{out}; }}
"""
ZSH = """
autoload -Uz compinit; compinit -u
fpath=({folder} $fpath)
_redodb() {{ source {completion} }}
compdef _redodb {programs}
for program in {programs}; do
    eval "$program() {{ note \\"\\$@\\"; }}"
done
note() {{ printf '%s\\0' "$@" >>{out}; printf '\\1' >>{out}; }}
"""
FISH = """
source {completion}
for program in {programs}
    eval "function $program; printf '%s\\0' \\$argv >>{out}; printf '\\1' >>{out}; end"
end
"""


def case_tab_in_bash(tree: Tree) -> None:
    """bash completes each name as one word, and runs nothing of it."""
    needs("bash")
    tree.write("home/rc", script(tree, BASH, "bash"))
    rc = str(tree.path("home/rc"))
    each_name(tree, ["bash", "--noprofile", "--rcfile", rc, "-i"])


def case_tab_in_zsh(tree: Tree) -> None:
    """So does zsh."""
    needs("zsh")
    tree.write("home/.zshrc", script(tree, ZSH, "zsh"))
    each_name(tree, ["zsh", "-d", "-i"])


def case_tab_in_fish(tree: Tree) -> None:
    """So does fish."""
    needs("fish")
    tree.write("home/rc", script(tree, FISH, "fish"))
    each_name(tree, ["fish", "--private", "-i", "-C", f"source {tree.path('home/rc')}"])


def script(tree: Tree, text: str, shell: str) -> str:
    """Returns what a shell reads when it begins."""
    folder = TOP / "completion"
    return text.format(
        completion=shlex.quote(str(folder / f"redodb.{shell}")),
        folder=shlex.quote(str(folder)),
        out=tree.path("words"),
        programs=PROGRAMS,
    )


def each_name(tree: Tree, shell: list[str]) -> None:
    """Checks what a shell completes in folders that have a target of each name, or a file."""
    for number, name in enumerate(NAMES):
        if "\t" in name and shell[0] == "fish":
            continue  # it ends each name there, that of a file among them
        one_name(tree, shell, name, f"{number}")
    lines = [(f"{NAMES.index('two words')}/target", f"redo-why {begun}") for begun in BEGUN]
    words = completed(tree, shell, lines)
    tree.check.same("a begun name", words, [["two words"]] * len(BEGUN))


def one_name(tree: Tree, shell: list[str], name: str, top: str) -> None:
    """Checks what a shell completes of one name. As an option, it is offered with its folder."""
    tree.write(f"{top}/default.do", "echo text\n")
    tree.path(f"{top}/target").mkdir()
    tree.redo("--", f"target/{name}", folder=top)
    tree.write(f"{top}-file/{name}", "")
    tree.write(f"{top}-folder/{name}/inside", "")
    typed = "./" if name[0] in "-~" else ""
    lines = [
        (f"{top}/target", f"redo {typed}"),
        (f"{top}/target", f"redo-why {typed}"),
        (f"{top}-file", f"redo-ifcreate {typed}"),
    ]
    tree.check.same(repr(name), completed(tree, shell, lines), [[typed + name]] * 3)
    lines = [(folder, line.removesuffix("./")) for folder, line in lines]
    if typed:
        for words in completed(tree, shell, lines):
            tree.check.true(f"{name!r}: {words}", words in ([""], [f"./{name}"]))
    else:
        (words,) = completed(tree, shell, [(f"{top}-folder", "redo-ifcreate \t")])
        # zsh doesn't look into folders of some names
        tree.check.true(f"{name!r}: {words}", words in ([name], [f"{name}/inside"]))
    for folder in ("/target", "-file", "-folder"):
        found = os.listdir(tree.path(f"{top}{folder}"))
        tree.check.same(f"{name!r}: files of {folder}", found, [name])


def completed(tree: Tree, shell: list[str], lines: list[tuple[str, str]]) -> list[list[str]]:
    """Returns the words of each line, typed in a folder, and after it TAB and RETURN."""
    words = tree.path("words")
    words.unlink(missing_ok=True)
    home = str(tree.path("home"))
    mine = {"HOME": home, "ZDOTDIR": home, "XDG_CONFIG_HOME": home, "XDG_DATA_HOME": home}
    typed = [f"cd {tree.path(folder)}\r{line}\t\r" for folder, line in lines]
    environment = tree.environment | mine | {"LC_ALL": "C.UTF-8"}
    on_terminal(shell, "".join([*typed, "exit\r"]).encode(), tree.folder, environment)
    return [one.split("\0")[:-1] for one in tree.read("words").split("\1")[:-1]]


def on_terminal(shell: list[str], typed: bytes, folder: Path, environment: dict[str, str]) -> str:
    """Types into a shell on a terminal; returns what is shown until the shell ends."""
    number, terminal = pty.fork()
    if number == 0:
        os.chdir(folder)
        os.execvpe(shell[0], shell, environment)
    os.write(terminal, typed)
    shown, end = b"", time.monotonic() + 60
    try:
        while time.monotonic() < end:
            if select.select([terminal], [], [], 1)[0]:
                shown += os.read(terminal, 65536)
    except OSError:
        pass
    os.kill(number, signal.SIGKILL)
    os.waitpid(number, 0)
    os.close(terminal)
    return shown.decode(errors="replace")
