"""One log of redodb-live over several starts, and power losses at each moment of them. What is
claimed of each is in tests/powerless/run."""
from __future__ import annotations

import random
from collections import Counter
from collections.abc import Iterable, Iterator
from pathlib import Path
from typing import NamedTuple

from disks import Disk, Event, disk_of
from losing import Losing, Loss, Moment, names_in
from recordings import Recorder, bursts, random_lines
from restarts import Heads, Restarts, text_of, whole
from shared.databases import QUESTIONS
from shared.dumps import HEADER as DUMP_HEADER, dump_of, left_by
from shared.talks import HEADER, Checks, changing_from, closing_of, greeting

# the answers that are no lines of a history
NO_LINES = (*QUESTIONS, "names", "end")
# of losses
KINDS = ("new", "torn", "damaged")
# lines that are sent together
BURST = 25


class Start(NamedTuple):
    """A start of the program, and how it ends: by the end of its input, or by a loss, if there is
    one of this kind; whether nothing is open in the end, and whether its log is compacted."""

    is_synced: bool
    loss: str = ""
    is_ended: bool = False
    is_compacting: bool = False

    def words(self) -> list[str]:
        return ["--sync"] * self.is_synced + ["--compact"] * self.is_compacting


def told_lines(said: str) -> list[str]:
    """The answers that are lines of a history."""
    lines = [line for line in whole(said).splitlines(keepends=True) if " => " in line]
    return [line for line in lines if line.split(" ")[1] not in NO_LINES]


class Talked:
    """A log that is talked about in several starts."""

    def __init__(self, program: Path, folder: Path, checks: Checks, name: str, seed: str) -> None:
        self.checks, self.name = checks, name
        (folder / "images").mkdir(parents=True)
        self.recorder = Recorder(program, folder)
        self.heads = Heads()
        self.restarts = Restarts(program, folder / "images", self.heads)
        self.choose = random.Random(seed)
        self.number = self.choose.randrange(1000)
        self.names = names_in(folder)
        self.log, self.copy, _ = self.names
        self.losing = Losing(checks, self.restarts, self.names, self.choose)
        self.disk = disk_of({})
        # what is to be on the disk, and the lines of the log at the start; how many are restored
        self.promised = self.lines = ""
        self.restored = 0
        # the kinds of losses that it went on with
        self.met: set[str] = set()

    @property
    def tally(self) -> Counter[str]:
        """How many losses left how much."""
        return self.losing.tally

    def talk(self, starts: Iterable[Start]) -> None:
        for number, start in enumerate(starts, 1):
            self.start(f"{self.name}, start {number}", start)

    def start(self, name: str, start: Start) -> None:
        """One start, and all losses within it."""
        words = ["--log", self.log, *start.words(), *self.begun()]
        lines = random_lines(self.choose, self.number, start.is_ended)
        recording = self.recorder.recorded(bursts(self.choose, lines, BURST), *words)
        moments = list(self.moments(name, recording.events, start.is_synced))
        losses = [loss for at, moment in enumerate(moments)
                  for loss in self.losing.losses(f"{name}, moment {at}", moment)]
        told = (recording.status, "" if "--salvage" in words else recording.errors)
        self.checks.check(f"{name}: its end", told, (0, ""))
        self.disk, self.promised = moments[-1].disk, moments[-1].promised
        self.checks.check(f"{name}: all is recorded", self.found(), self.disk.now())
        if start.loss:
            self.lose([loss for loss in losses if loss.is_like(start.loss)] or losses)

    def begun(self) -> list[str]:
        """The word that a start needs, if the log is damaged. An older copy is moved away then."""
        image = self.losing.image(self.disk.now())
        outcome = self.restarts.outcome(image)
        self.lines, self.restored = outcome.lines, outcome.restored
        if outcome.refused is None or image.log is None:
            return []
        Path(self.copy).unlink(missing_ok=True)
        self.losing.damaged = image.log
        self.disk = disk_of(self.found())
        return ["--salvage"]

    def found(self) -> dict[str, bytes]:
        """The files that are really there."""
        files = map(Path, self.names)
        return {str(file): file.read_bytes() for file in files if file.exists()}

    def lose(self, losses: list[Loss]) -> None:
        """Goes on with what one of these losses leaves."""
        for file in self.found():
            Path(file).unlink()
        self.losing.damaged = None
        files: dict[str, bytes] = {}
        if losses:
            loss = self.choose.choice(losses)
            self.met |= {kind for kind in KINDS if loss.is_like(kind)}
            self.promised = loss.moment.promised
            pairs = zip(self.names, loss.image)
            files = {file: text for file, text in pairs if text is not None}
        for file, text in files.items():
            Path(file).write_bytes(text)
        self.disk = disk_of(files)

    def had(self, disk: Disk) -> str:
        """The lines of the log, as the programs see it."""
        log = disk.now().get(self.log)
        is_as_before = self.losing.damaged is not None and log == self.losing.damaged
        return self.lines if is_as_before else self.heads.lines(text_of(log))

    def moments(self, name: str, events: Iterable[Event], is_synced: bool) -> Iterator[Moment]:
        """The moment before these events, and that after each. What is answered is in the log."""
        disk, said, promised = self.disk, "", self.promised
        yield Moment(is_synced, disk, promised, self.had(disk))
        for event in events:
            disk = disk.after(event)
            if event.kind == "rename":
                self.compacted(name, disk)
            had = self.had(disk)
            if event.kind == "out":
                said += event.data.decode("latin-1")
                answered = self.answered(said)
                promised = answered if is_synced else promised
                self.checks.check(f"{name}: is in the log", had.startswith(answered), True)
            yield Moment(is_synced, disk, promised, had)
        wanted = greeting(self.restored)
        self.checks.check(f"{name}: greeting", said.startswith(wanted), True)

    def begun_with(self) -> str:
        """The lines of the log, and those that close its sessions."""
        return self.lines + closing_of(self.lines.splitlines(keepends=True))

    def compacted(self, name: str, disk: Disk) -> None:
        """A dump took the place of the log: that of what its lines say."""
        begun = self.begun_with()
        wanted = DUMP_HEADER + dump_of(left_by((HEADER + begun).encode()))
        self.checks.check(f"{name}: the dump", disk.now().get(self.log), wanted)
        self.heads.known[wanted.decode()] = begun

    def answered(self, said: str) -> str:
        """The lines of the log that these answers are a promise of."""
        begun = self.begun_with()
        return begun + "".join(changing_from(begun.splitlines(keepends=True), told_lines(said)))
