"""What programs and the server of a tree take: the time that passes, and that of the processor."""
import os
import resource
import socket
import subprocess
import time
from collections.abc import Callable
from dataclasses import dataclass
from pathlib import Path

TOP = Path(__file__).resolve().parent.parent.parent
NANOSECONDS = 1e9
TICK = os.sysconf("SC_CLK_TCK")


@dataclass(frozen=True)
class Taken:
    """Seconds: those that passed, and those of the processor."""

    passed: float
    used: float


def taken(command: list[str], folder: Path, environment: dict[str, str], status: int = 0) -> Taken:
    """Runs a program that has to end with this status. What its children took counts as well."""
    before, began = resource.getrusage(resource.RUSAGE_CHILDREN), time.perf_counter()
    run = subprocess.run(
        command,
        cwd=folder,
        env=environment,
        stdin=subprocess.DEVNULL,
        stdout=subprocess.DEVNULL,
        stderr=subprocess.PIPE,
        check=False,
    )
    passed, after = time.perf_counter() - began, resource.getrusage(resource.RUSAGE_CHILDREN)
    if run.returncode != status:
        raise SystemExit(f"{command}: status {run.returncode}: {run.stderr.decode()[-500:]}")
    return Taken(passed, after.ru_utime + after.ru_stime - before.ru_utime - before.ru_stime)


def passed(task: Callable[[], object]) -> float:
    """Seconds that pass in a task."""
    began = time.perf_counter()
    task()
    return time.perf_counter() - began


def used_by(process: int) -> float:
    """Seconds of the processor that a process has used, and those of its children that ended."""
    place = Path(f"/proc/{process}")
    words = (place / "stat").read_text().rpartition(")")[2].split()
    ended = sum(int(word) for word in words[13:15]) / TICK
    own = sum(int((each / "schedstat").read_text().split()[0]) for each in place.glob("task/*"))
    return own / NANOSECONDS + ended


def children_of(process: int) -> list[int]:
    """The processes that a process started, and that are there."""
    found = []
    for folder in Path(f"/proc/{process}/task").iterdir():
        found += [int(word) for word in (folder / "children").read_text().split()]
    return found


def _listens(path: Path) -> bool:
    """Whether somebody listens on this socket."""
    with socket.socket(socket.AF_UNIX) as client:
        return client.connect_ex(str(path)) == 0


def wait_for_end_of_server(top: Path) -> None:
    """Waits until a tree has no server."""
    lock = top / ".redo/server/lock"
    while lock.exists() and subprocess.run(["flock", "-n", lock, "true"], check=False).returncode:
        time.sleep(0.01)


class Server:
    """The server of a tree, started here to measure what it takes. It ends with `with`."""

    def __init__(self, top: Path, environment: dict[str, str]) -> None:
        (top / ".redo").mkdir(exist_ok=True)
        wait_for_end_of_server(top)
        self.process = subprocess.Popen(
            ["redo-server", "--top", str(top), "--idle", "3600"],
            env=environment,
            executable=str(programs() / "redo-server"),
            stdin=subprocess.DEVNULL,
        )
        while not _listens(top / ".redo/server/socket"):
            if self.process.poll() is not None:
                raise SystemExit(f"the server of {top} ended with status {self.process.returncode}")
            time.sleep(0.01)

    def __enter__(self) -> "Server":
        return self

    def __exit__(self, *_: object) -> None:
        self.process.terminate()
        self.process.wait()

    def used(self) -> tuple[float, float]:
        """Seconds of the processor that the server and its database have used."""
        return used_by(self.process.pid), sum(map(used_by, children_of(self.process.pid)))

    def memory(self) -> tuple[float, float]:
        """Megabytes of memory that the server has, without its database, and had at most."""
        lines = Path(f"/proc/{self.process.pid}/status").read_text().splitlines()
        told = dict(line.split(":", 1) for line in lines)
        now, most = (int(told[name].split()[0]) / 1024 for name in ("VmRSS", "VmHWM"))
        return now, most


@dataclass
class Bench:
    """What all parts of the bench share."""

    rounds: int
    environment: dict[str, str]

    def least(self, tasks: dict[str, Callable[[], float]]) -> dict[str, float]:
        """What tasks take: they are done in turn, and the least of each counts."""
        times = [{name: task() for name, task in tasks.items()} for _ in range(self.rounds)]
        return {name: min(each[name] for each in times) for name in tasks}

    def least_taken(self, tasks: dict[str, Callable[[], Taken]]) -> dict[str, Taken]:
        """What tasks take: they are done in turn, and the least of each counts, of both times."""
        times = [{name: task() for name, task in tasks.items()} for _ in range(self.rounds)]
        return {
            name: Taken(
                min(each[name].passed for each in times), min(each[name].used for each in times)
            )
            for name in tasks
        }

    def run(self, folder: Path, *words: str, status: int = 0) -> Taken:
        return taken(list(words), folder, self.environment, status)

    def run_with(self, server: Server, folder: Path, *words: str) -> Taken:
        """Runs a program. What the server and its database take for it counts as well."""
        before = sum(server.used())
        run = self.run(folder, *words)
        return Taken(run.passed, run.used + sum(server.used()) - before)


def programs() -> Path:
    """The folder of redo's programs: $REDO_PROGRAMS, or where redo/build leaves them."""
    return Path(os.environ.get("REDO_PROGRAMS") or TOP / "redo/target/release").resolve()


def live() -> str:
    """The database: $REDODB_LIVE, ./redodb-live if it is proved, or else the plain stand-in."""
    proved = TOP / "redodb-live"
    chosen = os.environ.get("REDODB_LIVE")
    places = [chosen] if chosen else [str(proved), str(programs() / "redodb-live-plain")]
    found = next((place for place in places if version_of(place)), None)
    if found is None:
        raise SystemExit(f"there is no database: neither {' nor '.join(places)}")
    return found


def version_of(database: str) -> str:
    """The first line of a database, which has its version; nothing if it can't be run."""
    run = subprocess.run(
        [database], stdin=subprocess.DEVNULL, capture_output=True, text=True, check=False
    )
    return run.stdout.strip() if run.returncode == 0 else ""


def environment() -> dict[str, str]:
    """The environment of all that is measured."""
    kept = {
        name: value for name, value in os.environ.items() if not name.startswith(("REDO", "MAKE"))
    }
    return {
        **kept,
        "PATH": f"{programs()}:{os.environ.get('PATH', os.defpath)}",
        "REDODB_LIVE": live(),
        "PYTHONPATH": str(TOP / "python"),
    }


def row(name: str, value: str, note: str = "") -> None:
    print(f"    {name:44}{value:>14}{note and '    ' + note}", flush=True)


def milliseconds(seconds: float) -> str:
    return f"{1000 * seconds:.1f} ms"


def ratio(one: float, other: float) -> str:
    return f"{one / other:.2f}"
