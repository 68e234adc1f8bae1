"""What the benchmarks of conversations share: programs are compiled, and run in turn."""
import os
import shutil
import subprocess
import sys
from pathlib import Path
from typing import Callable, Sequence

TOP = Path(__file__).resolve().parent.parent.parent
PROGRAM = TOP / "crates/redodb_live_cli/out/redodb_live_cli"
WRAPPER = TOP / "redodb-live"
ROUNDS = int(os.environ.get("ROUNDS", "5"))


def compiled(folder: Path, source: str) -> Path:
    """A plain program, compiled into the folder."""
    program, source_file = folder / Path(source).stem, TOP / "bench" / source
    subprocess.run(["rustc", "--edition", "2021", "-O", "-o", program, source_file], check=True)
    return program


def installed(program: Path, folder: Path) -> Path:
    """The script redodb-live over this program, as `./install` lays them out below a folder."""
    (folder / "libexec").mkdir()
    shutil.copy(program, folder / "libexec/redodb-live")
    return Path(shutil.copy(WRAPPER, folder))


def seconds(command: list[object], asked: Path, output: object = subprocess.DEVNULL) -> float:
    """Seconds of the processor that a command takes on this input."""
    with asked.open("rb") as lines:
        child = subprocess.Popen([str(word) for word in command], stdin=lines, stdout=output)
        _, status, usage = os.wait4(child.pid, 0)
    child.returncode = os.waitstatus_to_exitcode(status)
    if child.returncode:
        sys.exit(f"{command[0]} failed")
    return usage.ru_utime + usage.ru_stime


def least(tasks: Sequence[Callable[[], float]], rounds: int = ROUNDS) -> list[float]:
    """What tasks take, each of which returns it: they are done in turn, and the least counts."""
    times = [[task() for task in tasks] for _ in range(rounds)]
    return [min(taken) for taken in zip(*times)]


def answered_in(asking: Path, words: Sequence[Path], lines: Path, count: int, piece: int) -> float:
    """Seconds that pass while a program (these words) is asked the last `count` lines of a file,
    `piece` at a time."""
    command = [str(word) for word in (asking, count, piece, *words)]
    with lines.open("rb") as text:
        run = subprocess.run(command, stdin=text, capture_output=True, check=True)
    return float(run.stdout)
