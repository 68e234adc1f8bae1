"""Power losses while redodb-live compacts its log in the midst of a conversation with --sync. What
is claimed of each is in tests/powerless/run."""
import random
from collections.abc import Iterator
from pathlib import Path

from disks import Disk, Event, disk_of
from losing import Losing, Moment, names_in
from recordings import Recorder
from restarts import Heads, Restarts, text_of
from shared.long_logs import ENOUGH, PLAIN, again, compacted, files_after, text_of as text_of_files
from shared.talks import Checks, greeting

# the lines: so many come after those that are reason enough for a dump
TEXT = text_of_files(again(ENOUGH + 1000))
# what is done with the log before a dump is begun, and the answers after the dump that are met
DONE = ["write", "sync", "out"]
ANSWERS = 2


class Midst:
    """A log that grows until a dump takes its place."""

    def __init__(self, program: Path, folder: Path, checks: Checks, seed: str) -> None:
        self.checks = checks
        (folder / "images").mkdir(parents=True)
        self.recorder = Recorder(program, folder)
        self.heads = Heads()
        restarts = Restarts(program, folder / "images", self.heads, "--whole")
        self.log, _, self.new = names = names_in(folder)
        self.losing = Losing(checks, restarts, names, random.Random(seed))
        self.asked = folder / "asked"
        self.asked.write_text(TEXT.replace(" => ok", ""))
        # the heads of the logs that losses left
        self.met: set[str] = set()

    def talk(self) -> None:
        """The conversation, and all losses from the moment on at which a dump is begun."""
        events, *told = self.recorder.recorded_of(self.asked, "--log", self.log, "--sync")
        self.checks.check("in the midst: its end", told, [0, ""])
        begin = events.index(Event("create", self.new))
        for at, moment in enumerate(self.moments(events[:begin], events[begin:])):
            for loss in self.losing.losses(f"in the midst, moment {at}", moment):
                log = text_of(loss.image.log)
                self.met |= {head for head in self.heads.known if log.startswith(head)}
        self.checks.check("in the midst: both logs are left", self.met, set(self.heads.known))

    def moments(self, before: list[Event], later: list[Event]) -> Iterator[Moment]:
        """The moment before these later events, and that after each."""
        self.checks.check("in the midst: all is synced", [event.kind for event in before[-3:]], DONE)
        log = b"".join(event.data for event in before if event.kind == "write")
        said = self.answered(before)
        self.checks.check("in the midst: all is answered", PLAIN + said.encode() == log, True)
        self.heads.known[compacted(files_after(said)).decode()] = said
        disk, answers = disk_of({self.log: log}), 0
        yield self.moment(disk, said)
        for event in later:
            disk = disk.after(event)
            if event.kind == "out":
                said, answers = said + event.data.decode(), answers + 1
            yield self.moment(disk, said)
            if answers == ANSWERS:
                break

    def answered(self, events: list[Event]) -> str:
        """The answers without the greeting."""
        said = b"".join(event.data for event in events if event.kind == "out").decode()
        return said.removeprefix(greeting(0))

    def moment(self, disk: Disk, said: str) -> Moment:
        """A moment at which this was answered."""
        had = self.heads.lines(text_of(disk.now().get(self.log)))
        self.checks.check("in the midst: is in the log", had.startswith(said), True)
        return Moment(True, disk, said, had)
