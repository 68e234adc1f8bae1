"""Commands, and why a release can't be made."""
import os
import subprocess
from collections.abc import Mapping, Sequence
from pathlib import Path

TOP = Path(__file__).resolve().parent.parent


class ReleaseError(Exception):
    """There is no release; the text is the cause, in one line."""


def output(
    words: Sequence[str | Path], folder: Path = TOP, environment: Mapping[str, str] | None = None
) -> str:
    """What a command prints. Raises ReleaseError if it fails or isn't there."""
    try:
        run = subprocess.run(
            words,
            cwd=folder,
            env={**os.environ, **(environment or {})},
            capture_output=True,
            text=True,
            errors="replace",
            stdin=subprocess.DEVNULL,
            check=False,
        )
    except FileNotFoundError as error:
        raise ReleaseError(f"{words[0]}: it isn't installed") from error
    if run.returncode:
        raise ReleaseError(cause(Path(words[0]).name, run.stdout + run.stderr))
    return run.stdout


def cause(name: str, said: str) -> str:
    """The line of what a command said that tells why it failed: its first error, or the last."""
    lines = said.strip().splitlines() or ["no word of it"]
    line = next((line for line in lines if "error: " in line), lines[-1])
    return line if line.startswith(f"{name}: ") else f"{name}: {line}"
