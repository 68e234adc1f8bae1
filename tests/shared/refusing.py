"""Runs with one request for memory, or the start of one thread, refused."""
import os
import tempfile

TOP = os.path.dirname(os.path.dirname(os.path.dirname(os.path.abspath(__file__))))
# more requests than any run here makes
MOST = 100000


class Sweep:
    """A run with its first request refused, its second one, and so on, until a run meets no refusal.

    `run` is called with the environment. It returns what is wrong with the run, and how often the run has reported
    a refusal in its answers."""

    def __init__(self, library, variable, run):
        self.library, self.variable, self.run = library, variable, run
        self.refused = self.told = self.spared = self.untold = 0
        self.wrong = []

    def step(self, at, report):
        """One run. Returns whether it met the refusal."""
        wanted = {self.variable: str(at), "FAIL_REPORT": report, "LD_PRELOAD": self.library}
        fault, told = self.run({**os.environ, **wanted})
        try:
            with open(report) as counts:
                refused, spared, running = map(int, counts.read().split())
        except (FileNotFoundError, ValueError):
            self.wrong.append(f"request {at}: no report; {fault}")
            return True
        os.remove(report)
        spared = min(spared, 1)
        if running:
            fault = fault or f"{running} threads not joined"
        if told + spared < refused or told and not refused:
            fault = fault or f"{refused} refused, {told} told, {spared} spared"
        if fault:
            self.wrong.append(f"request {at}: {fault}")
        self.refused += refused
        self.told += told
        self.spared += spared
        self.untold += max(refused - told - spared, 0)
        return bool(refused)

    def all(self):
        """All runs. The last one meets no refusal."""
        with tempfile.TemporaryDirectory() as work:
            for at in range(1, MOST):
                if not self.step(at, os.path.join(work, "report")):
                    return self
        self.wrong.append("no run without a refusal")
        return self
