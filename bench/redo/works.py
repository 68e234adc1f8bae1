"""The works by which redo is measured beside ninja, make and tup."""
import shutil
import subprocess
from collections.abc import Callable, Iterator
from dataclasses import dataclass
from pathlib import Path

from forest import Forest
from measuring import Bench, Server, Taken, milliseconds, ratio, row, taken
from measuring import wait_for_end_of_server

BENCH = Path(__file__).resolve().parent
JOBS = "4"
CALLED = "called"
TRUE = "/bin/true"
TOOLS = {
    "ninja": ("ninja", "-j", JOBS, "top"),
    "make": ("make", "-s", "-j", JOBS, "top"),
    "tup": ("tup", "--quiet", f"-j{JOBS}"),
}


def tools() -> dict[str, tuple[str, ...]]:
    """The command of each tool that is there: ninja and make have to be, tup may be."""
    missing = [tool for tool in ("ninja", "make", "flock") if shutil.which(tool) is None]
    if missing:
        raise SystemExit(f"bench/redo/run wants {', '.join(missing)}")
    return {tool: words for tool, words in TOOLS.items() if shutil.which(tool)}


@dataclass
class Trees:
    """A tree for each tool, all alike."""

    bench: Bench
    folder: Path
    targets: int

    def tree(self, tool: str) -> Forest:
        """The tree of a tool, which is written if it isn't there."""
        forest = Forest(self.folder / tool, self.targets)
        if not forest.folder.exists():
            forest.write()
            if tool == "tup":
                self.bench.run(forest.folder, "tup", "init")
        return forest

    def build(self, tool: str) -> Taken:
        """Builds the tree of a tool other than redo."""
        return self.bench.run(self.tree(tool).folder, *TOOLS[tool])

    def build_by_redo(self, server: Server, *words: str) -> Taken:
        return self.bench.run_with(server, self.tree("redo").folder, *words)


@dataclass(frozen=True)
class Parts:
    """Seconds of the processor, for a build from nothing."""

    programs: float
    server: float
    database: float

    def all(self) -> float:
        return self.programs + self.server + self.database


def building(bench: Bench, folder: Path, targets: int) -> Trees:
    """All is built from nothing. Each time that is in trees of their own, since file systems may
    remember what was removed. Returns the last trees."""
    times: dict[str, list[Taken]] = {}
    parts = []
    memory = []
    for at in range(bench.rounds):
        trees = Trees(bench, folder / str(at), targets)
        for tool in tools():
            trees.tree(tool)
            times.setdefault(tool, []).append(trees.build(tool))
        tree = trees.tree("redo")
        with Server(tree.folder, bench.environment) as server:
            before = server.used()
            run = bench.run(tree.folder, "redo", "-j", JOBS, "top")
            used = [after - earlier for after, earlier in zip(server.used(), before)]
            parts.append(Parts(run.used, *used))
            times.setdefault("redo", []).append(Taken(run.passed, parts[-1].all()))
            memory.append(server.memory())
        for tool in ("redo", *tools()):
            trees.tree(tool).check_built()
    print(f"{targets:,} targets from nothing at -j {JOBS}")
    _compare(_least(times), "must: 1.8, aim: 1.3")
    least = min(parts, key=Parts.all)
    for what, seconds in vars(least).items():
        row(f"processor's time for a target, {what}", f"{1e3 * seconds / targets:.3f} ms")
    now, most = (min(each) for each in zip(*memory))
    row("memory of the server afterwards", f"{now:.1f} MB", "must: 20 MB, aim: 10 MB")
    row("its most", f"{most:.1f} MB")
    return trees


def _least(times: dict[str, list[Taken]]) -> dict[str, Taken]:
    return {
        tool: Taken(min(each.passed for each in all_), min(each.used for each in all_))
        for tool, all_ in times.items()
    }


def _compare(times: dict[str, Taken], bounds: str, name: str = "redo") -> None:
    """Prints what tools took, and the ratios of redo."""
    for tool, each in times.items():
        note = f"{milliseconds(each.used)} of the processor"
        row(tool, milliseconds(each.passed), note)
    own = times[name]
    for tool, each in times.items():
        if tool != name:
            note = f"{ratio(own.used, each.used)} of the processor"
            bound = f"    {bounds}" if tool.startswith("ninja") else ""
            row(f"{name} / {tool}", ratio(own.passed, each.passed), note + bound)


def called(trees: Trees, server: Server) -> None:
    """One redo-ifchange in a script, and what the server takes for it, beside /bin/true."""
    bench, tree = trees.bench, trees.tree("redo")
    names = [Forest.source(target) for target in tree.targets[:1000]]
    (tree.folder / "names").write_text("".join(f"{name}\n" for name in names))
    calls = f"{BENCH / 'calls.py'} names"
    (tree.folder / f"{CALLED}.do").write_text(f'{calls} redo-ifchange >"$3"\n')

    def by_redo() -> Taken:
        before = sum(server.used())
        bench.run(tree.folder, "redo", CALLED)
        used = (sum(server.used()) - before) / len(names)
        wall, own = map(float, (tree.folder / CALLED).read_text().split())
        parts.append((own, used))
        return Taken(wall, own + used)

    def by_true() -> Taken:
        words = [*calls.split(" "), TRUE]
        told = subprocess.check_output(words, cwd=tree.folder, env=bench.environment, text=True)
        return Taken(*map(float, told.split()))

    parts: list[tuple[float, float]] = []
    times = bench.least_taken({"redo-ifchange": by_redo, TRUE: by_true})
    own, used = min(parts, key=sum)
    beyond = times["redo-ifchange"].used - times[TRUE].used
    print(f"one redo-ifchange in a script, of {len(names):,}")
    for name, each in times.items():
        note = f"{1e3 * each.used:.3f} ms of the processor"
        row(name, f"{1e3 * each.passed:.3f} ms", note)
    row("the program in it", f"{1e3 * own:.3f} ms")
    row("the server and its database in it", f"{1e3 * used:.3f} ms")
    row("beyond the start of /bin/true", f"{1e3 * beyond:.3f} ms", "must: 0.7 ms, aim: 0.3 ms")


def nothing_to_do(trees: Trees, server: Server) -> None:
    """All is up to date: how long it takes to find that out."""
    tasks: dict[str, Callable[[], Taken]] = {
        "redo": lambda: trees.build_by_redo(server, "redo-ifchange", "top")
    }
    tasks |= dict(_builds(trees))
    for task in tasks.values():
        task()
    print(f"nothing to do, {trees.targets:,} targets, with a server that is there")
    _compare(trees.bench.least_taken(tasks), "must: 1.0, aim: 0.5")


def _builds(trees: Trees) -> Iterator[tuple[str, Callable[[], Taken]]]:
    """What builds the trees of the tools that are there."""
    for tool in tools():
        yield tool, lambda tool=tool: trees.build(tool)  # type: ignore[misc]


def nothing_to_do_without_server(trees: Trees) -> None:
    """The same, if the server has to be started: the database reads its log."""
    folder = trees.tree("redo").folder
    environment = {**trees.bench.environment, "REDO_IDLE": "0.1"}

    def by_redo() -> Taken:
        wait_for_end_of_server(folder)
        return taken(["redo-ifchange", "top"], folder, environment)

    times = trees.bench.least_taken({"redo": by_redo, "ninja": lambda: trees.build("ninja")})
    with (folder / ".redo/log").open("rb") as log:
        lines = sum(1 for _ in log) - 1
    print(f"the same, with a server that is started ({lines:,} lines of log)")
    for tool, each in times.items():
        row(tool, milliseconds(each.passed))
    passed = times["redo"].passed / times["ninja"].passed
    row("redo / ninja", f"{passed:.2f}", "must: 2.0, aim: 1.0")


def header(bench: Bench, folder: Path, targets: int) -> None:
    """A file is edited that all targets depend on."""
    trees = Trees(bench, folder, targets)
    with Server(trees.tree("redo").folder, bench.environment) as server:
        tasks: dict[str, Callable[[], Taken]] = {
            "redo": lambda: trees.build_by_redo(server, "redo", "-j", JOBS, "top")
        }
        # tup doesn't see the edit on each file system
        tasks |= {tool: build for tool, build in _builds(trees) if tool != "tup"}
        for task in tasks.values():
            task()

        def edited(tool: str) -> Taken:
            trees.tree(tool).edit_common("edited")
            took = tasks[tool]()
            trees.tree(tool).check_built()
            return took

        times = bench.least_taken({tool: lambda tool=tool: edited(tool) for tool in tasks})
    print(f"a header of {targets:,} targets was edited, at -j {JOBS}")
    _compare(times, "must: 2.5, aim: 1.5")


def out_of_date(trees: Trees, server: Server) -> None:
    """redo-ood beside ninja -n, if all is out of date."""
    trees.tree("redo").edit_common("edited")
    trees.tree("ninja").edit_common("edited")
    folder, of_ninja = trees.tree("redo").folder, trees.tree("ninja").folder
    tasks: dict[str, Callable[[], Taken]] = {
        "redo-ood": lambda: trees.build_by_redo(server, "redo-ood"),
        "ninja -n": lambda: trees.bench.run(of_ninja, "ninja", "-n", "top"),
    }
    times = trees.bench.least_taken(tasks)
    words = ["redo-ood"]
    told = subprocess.check_output(words, cwd=folder, env=trees.bench.environment, text=True)
    wanted = trees.targets + len(trees.tree("redo").folders) + 1
    if len(told.splitlines()) < wanted:
        raise SystemExit(f"{len(told.splitlines())} targets are out of date, and not {wanted}")
    print(f"what is out of date: all of {wanted:,} targets")
    _compare(times, "must: 1.0, aim: 0.5", "redo-ood")
