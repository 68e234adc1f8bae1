"""What is checked of a run of redodb-live in which a call failed, by docs/RULES.md."""
import errno
import signal
from dataclasses import dataclass
from typing import Iterable

from calls import Call, Tried
from logs import Scenario, Wanted

# what the fault line says of the log if such a call failed
CAUSES = {
    "create log": "cannot open", "open log": "cannot open", "lock log": "cannot lock",
    "read log": "read", "write log": "write", "sync log": "write", "cut log": "write",
    "open folder": "write", "sync folder": "write",
}
# what it says of something else
OTHERS = {"write out": "write", "read in": "-: read"}
# calls that open the copy of a damaged log, and those that also copy it
OPENING_COPY = "create copy", "open copy"
COPYING = ("read log", "open folder", "sync folder")


@dataclass
class Disk:
    """What a disk has of the log for sure. After a sync that failed, the next one passes, and has
    nothing to write: what the first one lost is on the disk only if it is written once more."""
    length: int = 0
    synced: int = 0
    written_again: int = 0
    lost: int = 0

    def is_sure(self) -> bool:
        """Whether the next sync that passes leaves no byte that was lost."""
        return max(self.synced, self.written_again) >= self.lost

    def do(self, call: Call) -> None:
        match call.kind, call.file, call.result < 0:
            case "sync", "log", True:
                self.lost = call.log
            case "sync", "log", False if self.is_sure():
                self.synced = call.log
            case "cut", "log", False:
                self.synced = min(self.synced, call.log)
                self.lost = min(self.lost, call.log)
            case "write", "log", False if call.log == self.length:
                self.written_again += call.result
        self.length = call.log


def has_passed(calls: Iterable[Call], kind: str, file: str) -> bool:
    return any(call.has_passed(kind, file) for call in calls)


def is_folder_synced(calls: Iterable[Call]) -> bool:
    """Whether the folder was synced, as far as its file system can do it."""
    syncs = [call for call in calls if (call.kind, call.file) == ("sync", "folder")]
    return any(call.result in (0, -errno.EINVAL) for call in syncs)


def before(calls: list[Call], kind: str, file: str) -> list[Call] | None:
    """The calls before the first of this kind that passed; None if there is none."""
    for at, call in enumerate(calls):
        if call.has_passed(kind, file):
            return calls[:at]
    return None


def cause_of(scenario: Scenario, failed: Call, earlier: list[Call], log: str) -> str | None:
    """What the fault line has to say of a failed call; None if the failure is no fault.

    Three failures are none. A log that is there is opened, though it can't be created. A file
    system may have no sync of a folder. The report of a salvaged log may be lost.
    """
    call = f"{failed.kind} {failed.file}"
    if call == "write err" or call == "create log" and scenario.text is not None:
        return None
    if call == "sync folder" and failed.result == -errno.EINVAL:
        return None
    if call == "lock log" and failed.result == -errno.EAGAIN:
        return f"{log}: in use"
    if call in OPENING_COPY:
        return f"{log}.damaged: cannot open"
    is_open = any(has_passed(earlier, *opening.split()) for opening in OPENING_COPY)
    is_copying = is_open and not has_passed(earlier, "cut", "log")
    if failed.file == "copy" or is_copying and call in COPYING:
        return f"{log}.damaged: write"
    return OTHERS.get(call) or f"{log}: {CAUSES[call]}"


class Judged:
    """A run in which a call failed, or the program was killed at one, and what is right of it."""

    def __init__(
        self, scenario: Scenario, wanted: Wanted, tried: Tried, log: str, is_killed: bool
    ) -> None:
        self.scenario, self.wanted, self.tried, self.log = scenario, wanted, tried, log
        self.is_killed = is_killed
        self.failed = tried.failed()
        self.cause: str | None = "killed" if is_killed else None
        if self.failed and not is_killed:
            earlier = tried.calls[:tried.calls.index(self.failed)]
            self.cause = cause_of(scenario, self.failed, earlier, log)

    def ended(self) -> tuple[int, str]:
        """The status and the lines on standard error that it has to have."""
        if self.is_killed:
            is_told = has_passed(self.tried.calls, "write", "err")
            return -signal.SIGKILL, self.scenario.report(self.log) if is_told else ""
        is_told = self.failed is None or self.failed.file != "err"
        is_cut = self.scenario.is_damaged() and has_passed(self.tried.calls, "cut", "log")
        report = self.scenario.report(self.log) if is_cut and is_told else ""
        return (2, f"{report}redodb-live: {self.cause}\n") if self.cause else (0, report)

    def is_said(self) -> bool:
        """Whether the answers are right, as far as they came; all come if there is no fault."""
        said, wanted = self.tried.said, self.wanted
        if self.cause is None:
            return said == wanted.said
        if self.failed and self.failed.file == "out" and self.failed.result >= 0:
            return wanted.said.startswith(said)
        return said in {"".join(wanted.answers[:count]) for count in range(len(wanted.answers) + 1)}

    def early(self) -> list[Call]:
        """The writes of answers whose lines weren't whole in the log, or not synced by --sync."""
        disk, said = Disk(), 0
        found: list[Call] = []
        for call in self.tried.calls:
            disk.do(call)
            if call.has_passed("write", "out"):
                said += call.result
                kept = disk.synced if self.scenario.is_synced() else call.log
                found += [call] if kept < self.wanted.needed(said) else []
        return found

    def is_kept(self) -> bool:
        """Whether the log that is left has all lines that were answered, in order, and of the
        others some, the last one maybe torn. If nothing was answered it may be as it was."""
        log, said = self.tried.log, len(self.tried.said)
        if self.cause is None:
            return log == self.wanted.log
        if not said and log == self.scenario.text:
            return True
        least = self.wanted.needed(said) if said else len(self.scenario.kept)
        return log is not None and self.wanted.log.startswith(log) and len(log) >= least

    def is_sure(self) -> bool:
        """Whether nothing that a sync lost is left in the log without being written once more."""
        disk = Disk()
        for call in self.tried.calls:
            disk.do(call)
        return disk.is_sure()

    def is_folder_first(self) -> bool:
        """Whether the folder is synced before the first line of a new log; with --sync, before the
        first answer."""
        header = before(self.tried.calls, "write", "log")
        answer = before(self.tried.calls, "write", "out")
        is_new = self.scenario.kept == ""
        awaited = [header if is_new else None, answer if self.scenario.is_synced() else None]
        return all(is_folder_synced(calls) for calls in awaited if calls is not None)

    def is_copy_first(self) -> bool:
        """Whether a damaged log is cut only when its copy and the folder are on the disk."""
        earlier = before(self.tried.calls, "cut", "log")
        if earlier is None or not self.scenario.is_damaged():
            return True
        copied = before(earlier, "sync", "copy")
        if copied is None or earlier[len(copied)].copy != len(self.scenario.text or ""):
            return False
        return is_folder_synced(earlier[len(copied):])

    def is_salvaged(self) -> bool:
        """Whether all bytes of a damaged log are still there: in the log, if the copy failed."""
        text, tried = self.scenario.text, self.tried
        if self.cause and self.cause.startswith(f"{self.log}.damaged: "):
            return tried.log == text
        return text in (tried.log, tried.copy)
