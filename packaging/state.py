"""What the tree is that a release is made of: its commit, and what ./check said of it."""
import os
from dataclasses import dataclass
from pathlib import Path

from machine import TOP, ReleaseError, output

CHECKED = TOP / "out/check"
"""What ./check writes when it has passed: the commit, the time, the kit's line, its last lines."""


@dataclass(frozen=True)
class State:
    """A tree, and what is known of it."""

    version: str
    commit: str
    seconds: int
    """When the commit was made, in seconds since 1970: no file of the release is newer."""
    kit: str
    gate: str


def state() -> State:
    """What is known of the tree. Raises ReleaseError if no release can be made of it."""
    check_clean()
    commit = output(["git", "rev-parse", "HEAD"]).strip()
    gate = checked(commit)
    return State(
        version=(TOP / "VERSION").read_text().strip(),
        commit=commit,
        seconds=int(output(["git", "log", "-1", "--format=%ct", commit])),
        kit=output(["rt", "version"]).strip().splitlines()[0],
        gate=gate,
    )


def check_clean() -> None:
    changed = output(["git", "status", "--porcelain"]).splitlines()
    if changed:
        raise ReleaseError(f"{changed[0][3:]}: not as in the commit: commit or remove it first")


def checked(commit: str) -> str:
    """What ./check said last of this commit."""
    try:
        of, *lines = CHECKED.read_text().splitlines()
    except (OSError, ValueError):
        raise ReleaseError("no ./check has passed here: run it first") from None
    if of != commit:
        raise ReleaseError(f"./check has passed for {of[:8]}, and this is {commit[:8]}: run it")
    return ", ".join(lines)


def files_of_git() -> list[str]:
    """The names of the files that git knows and that are there."""
    names = output(["git", "ls-files", "-z"]).split("\0")
    return [name for name in names if name and os.path.lexists(TOP / name)]


def kit_folder() -> Path:
    """The folder of the kit whose rt is on the path."""
    for folder in os.get_exec_path():
        if (Path(folder) / "rt").exists():
            return (Path(folder) / "rt").resolve().parent.parent
    raise ReleaseError("rt: it isn't installed")
