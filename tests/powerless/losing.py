"""What a power loss at a moment leaves of the log of redodb-live, and whether all that is claimed of
it holds. The claims are in tests/powerless/run."""
from __future__ import annotations

import random
from collections import Counter
from collections.abc import Iterator
from pathlib import Path
from typing import NamedTuple

from disks import Disk, Step, in_any_order, in_order
from restarts import Image, Outcome, Restarts, text_of, whole
from shared.talks import Checks, shown

# of a moment with few changes all losses are tried, so often, with writes torn elsewhere; of each
# other one of a start with --sync so many losses, and of one in so many of a start without
FEW, TIMES, LOSSES, SHARE = 2, 4, 3, 4


class Moment(NamedTuple):
    """A moment at which power may be lost."""

    is_synced: bool
    disk: Disk
    # the lines that have to be on the disk, and all that the log had
    promised: str
    had: str


class Loss(NamedTuple):
    """What a loss at a moment leaves."""

    moment: Moment
    image: Image
    outcome: Outcome

    def is_like(self, kind: str) -> bool:
        """Whether this is a loss of this kind."""
        text = text_of(self.image.log)
        is_kept, is_named = bool(self.outcome.lines), self.outcome.refused is not None
        kinds = {
            "new": not is_kept,
            "torn": is_kept and not is_named and whole(text) != text,
            "damaged": is_kept and is_named,
        }
        return kinds.get(kind, True)


def names_in(folder: Path) -> tuple[str, ...]:
    """The names of a log in this folder, of its copy and of its new log."""
    return tuple(str(folder / name) for name in ("log", "log.damaged", "log.new"))


class Losing:
    """Losses of one log, which has these names with its copy and its new log."""

    def __init__(self, checks: Checks, restarts: Restarts, names: tuple[str, ...],
                 choose: random.Random) -> None:
        self.checks, self.restarts, self.names, self.choose = checks, restarts, names, choose
        # the log that a start with --salvage found since the last loss
        self.damaged: bytes | None = None
        # how many losses left how much
        self.tally: Counter[str] = Counter()

    def image(self, files: dict[str, bytes]) -> Image:
        return Image(*map(files.get, self.names))

    def losses(self, name: str, moment: Moment) -> Iterator[Loss]:
        """Losses at a moment, each once, and each checked."""
        tried: set[tuple[Image, bool]] = set()
        for steps, is_ordered in self.ways(moment):
            image = self.image(moment.disk.left(steps))
            if (image, is_ordered) in tried:
                continue
            tried.add((image, is_ordered))
            loss = Loss(moment, image, self.restarts.outcome(image))
            self.check(name, loss, is_ordered)
            yield loss

    def times(self, moment: Moment) -> int:
        """How often losses of a moment are tried."""
        is_chosen = self.choose.randrange(SHARE) == 0
        return TIMES if len(moment.disk.pending) <= FEW else int(moment.is_synced or is_chosen)

    def ways(self, moment: Moment) -> Iterator[tuple[list[Step], bool]]:
        """What is kept of the changes, and whether it is so if the disk does one after another."""
        for _ in range(self.times(moment)):
            yield from ((steps, True) for steps in in_order(moment.disk, self.choose, LOSSES))
            yield from ((steps, False) for steps in in_any_order(moment.disk, self.choose, LOSSES))

    def check(self, name: str, loss: Loss, is_ordered: bool) -> None:
        """What is claimed of a loss holds."""
        (_, _, promised, had), image, (lines, _, refused, faults) = loss
        heads = self.restarts.heads
        broken = {
            "an answered line is lost": not lines.startswith(promised),
            "a line is restored that wasn't there": not had.startswith(lines),
            "a right line is named": refused is not None and heads.is_right(refused, had),
            "a lost end is named": is_ordered and refused is not None and image.log != self.damaged,
            "what was damaged is lost": self.damaged is not None and self.damaged not in image,
        }
        found = [*faults, *(claim for claim, is_broken in broken.items() if is_broken)]
        self.checks.check(f"{name}: {shown(image)}", found, [])
        kept = "with all lines" if lines == had else "with an end lost"
        self.tally["with a line named" if refused is not None else kept] += 1
