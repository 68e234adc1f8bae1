"""What the tests of a release share: its names, what is counted, and how a command is called."""
import os
import subprocess
from collections.abc import Sequence
from pathlib import Path

TOP = Path(__file__).resolve().parent.parent.parent
VERSION = (TOP / "VERSION").read_text().strip()
TARBALL = f"redodb-{VERSION}-x86_64-linux"
WHEEL = f"redodb-{VERSION}-py3-none-any.whl"


class Tests:
    """What passed, failed and was skipped so far."""

    def __init__(self) -> None:
        self.passed = self.failed = self.skipped = 0

    def same(self, name: str, got: object, wanted: object) -> None:
        if got == wanted:
            self.passed += 1
        else:
            self.failed += 1
            print(f"failed: {name}\n  got:    {str(got)[-1500:]}\n  wanted: {wanted}", flush=True)

    def skip(self, name: str, cause: str) -> None:
        self.skipped += 1
        print(f"skipped: {name}: {cause}", flush=True)


def said(words: Sequence[str | Path], folder: Path = TOP, **environment: str) -> tuple[int, str]:
    """The status of a command, and what it prints."""
    run = subprocess.run(
        words,
        cwd=folder,
        env={**os.environ, **environment},
        stdin=subprocess.DEVNULL,
        stdout=subprocess.PIPE,
        stderr=subprocess.STDOUT,
        text=True,
        check=False,
    )
    return run.returncode, run.stdout
