"""Trees for which `redodb record --rules` writes `.do` files, and what redo builds by these."""

import os
import subprocess

import beside  # noqa: F401
from trees import TOP, TreeTest

PROGRAMS = TOP / "redo/target/release"
HAS_REDO = (PROGRAMS / "redo").exists()
SMALL = """\
rule copy
  command = cp $in $out
build x.txt: copy in.txt
"""


class RulesTest(TreeTest):
    """A test of trees in `self.top` that redo builds, and perhaps ninja in a copy."""

    def write_all(self, files: dict[str, str]) -> None:
        for name, text in files.items():
            self.write(name, text)

    def record(self, *words: str, status: int = 0) -> str:
        """Run `redodb record` in the tree; return its standard error."""
        run = subprocess.run(
            [str(TOP / "redodb"), "record", *words],
            cwd=self.top,
            env=self.environment(),
            capture_output=True,
            text=True,
            check=False,
        )
        self.assertEqual((run.returncode, run.stdout), (status, ""), run.stderr)
        return run.stderr

    def environment(self) -> dict[str, str]:
        kept = {key: value for key, value in os.environ.items() if key[:4] not in ("REDO", "MAKE")}
        if "REDODB_LIVE" in os.environ:
            kept["REDODB_LIVE"] = os.environ["REDODB_LIVE"]
        kept["REDO_IDLE"] = "3"
        return kept | {"PATH": f"{PROGRAMS}:{os.environ.get('PATH', os.defpath)}"}

    def redo(self, *words: str, status: int = 0) -> list[str]:
        """Run a redo program; return the targets that it built."""
        run = subprocess.run(
            words,
            cwd=self.top,
            env=self.environment(),
            capture_output=True,
            text=True,
            check=False,
        )
        self.assertEqual(run.returncode, status, run.stderr)
        begin = "redo  "
        return [line[6:].strip() for line in run.stderr.splitlines() if line.startswith(begin)]

    def files_built(self, *words: str) -> set[str]:
        """Run a redo program; return the targets that it built and that are files."""
        built = self.redo(*words)
        self.assertEqual(len(built), len(set(built)))
        return {name for name in built if (self.top / name).is_file()}

    def read(self, name: str) -> bytes:
        return (self.top / name).read_bytes()
