"""When redodb-live compacts a log in the midst of a conversation, and what it leaves as it is."""
from pathlib import Path

from shared.long_logs import (
    ENOUGH, LEAST, PLAIN, SIZE, TIMES, Files, again, compacted, files_after, others, text_of,
)
from shared.talks import Checks, ended, greeting

# so many lines come in one read at most
READ = 65_536 // (SIZE - len(" => ok")) + 1


def shorter(text: str, less: int) -> str:
    """The same lines, of which the last has so many bytes less."""
    begin, last = text[:-SIZE], text[-SIZE:]
    word, end = last[: -len(" => ok\n") - less], last[-len(" => ok\n") :]
    return f"{begin}{word}{end}"


class Midst:
    """The cases, in a folder of their own."""

    def __init__(self, program: Path, folder: Path, checks: Checks) -> None:
        self.program, self.checks = program, checks
        self.folder = folder / "midst"
        self.folder.mkdir()
        self.log, self.new = self.folder / "log", self.folder / "log.new"

    def says(self, name: str, head: bytes, text: str, *words: str, errors: str = "") -> bytes:
        """A conversation makes these lines, over a log that is this one. Returns the log then."""
        self.log.write_bytes(head)
        asked = text.replace(" => ok", "")
        got = ended(self.program, asked, "--log", str(self.log), *words)
        self.checks.check(f"{name}: answers", got == (0, greeting(0) + text, errors), True)
        return self.log.read_bytes()

    def stays(self, name: str, head: bytes, text: str, *words: str, errors: str = "") -> None:
        """The log gets all lines."""
        log = self.says(name, head, text, *words, errors=errors)
        self.checks.check(f"{name}: log", log == head + text.encode(), True)

    def shrinks(
        self, name: str, head: bytes, text: str, files: Files, *words: str, many: int = 0
    ) -> None:
        """The log has a dump, and the last lines: as many as this, or fewer by those of some
        reads. The next start goes on from it."""
        log = self.says(name, head, text, *words)
        lines = log[len(log) - log.count(b" => ok\n") * SIZE :].decode()
        rest = lines.count("\n")
        is_right = max(many - 3 * READ, 0) <= rest <= many
        self.checks.check(f"{name}: lines after the dump", is_right, True)
        before = text[: len(text) - len(lines)]
        self.checks.check(f"{name}: the last lines", before + lines == text, True)
        known = files_after(before, files)
        self.checks.check(f"{name}: dump", log[: len(log) - len(lines)] == compacted(known), True)
        self.goes_on(name, rest, files_after(lines, known))

    def goes_on(self, name: str, restored: int, files: Files) -> None:
        """The next start knows these files."""
        last = next(reversed(files))
        line = f"2 state {last} => idle lock - file {files[last]}\n"
        got = ended(self.program, f"2 state {last}\n", "--log", str(self.log), "--whole")
        self.checks.check(f"{name}: restart", got, (0, greeting(restored) + line, ""))
        self.checks.check(f"{name}: no new log is left", self.new.exists(), False)

    def enough(self) -> None:
        """Lines of 64 MiB are reason enough, and a byte less isn't."""
        text = text_of(again(ENOUGH))
        self.checks.check("64 MiB of lines", len(text), LEAST)
        self.stays("64 MiB of lines less 1", PLAIN, shorter(text, 1))
        self.stays("64 MiB of lines, whole", PLAIN, text, "--whole")
        self.shrinks("64 MiB of lines", PLAIN, text, {})
        self.shrinks("64 MiB of lines, synced", b"", text, {}, "--sync")

    def once_more(self) -> None:
        """After a dump as many lines are reason enough once more, and answers go on."""
        self.shrinks("128 MiB of lines", PLAIN, text_of(again(2 * ENOUGH + 3000)), {}, many=3000)

    def large(self) -> None:
        """After a large dump more lines are needed."""
        logs = ((count, compacted(dict(others(count)))) for count in range(5_000, 5_000 + SIZE))
        count, head = next((count, log) for count, log in logs if len(log) * TIMES % SIZE == 0)
        self.checks.check("a large dump is large", len(head) * TIMES > LEAST, True)
        text = text_of(again(len(head) * TIMES // SIZE))
        self.stays("after a large dump, less 1", head, shorter(text, 1))
        self.shrinks("after a large dump", head, text, dict(others(count)))
        self.stays("after a dump at the start", head, text[:LEAST], "--compact")

    def too_large(self) -> None:
        """A dump of more than half of the log isn't taken. It is tried again when the lines have
        doubled."""
        text = text_of(others(ENOUGH)) + text_of(again(ENOUGH + 3000))
        self.stays("a dump too large", PLAIN, text[: (2 * ENOUGH - 1) * SIZE])
        self.shrinks("a dump not too large any more", PLAIN, text, {}, many=3000)

    def in_the_way(self) -> None:
        """A new log that is in the way is told of each time, at 64 MiB and at 128 MiB, and the log
        gets all lines."""
        self.new.write_text("precious")
        told = f"redodb-live: {self.new}: is there already\n"
        text = text_of(again(3 * ENOUGH + 3000))
        self.stays("a new log in the way", PLAIN, text, errors=told * 2)
        self.checks.check("a new log in the way: stays", self.new.read_text(), "precious")
        self.new.unlink()

    def all(self) -> None:
        self.checks.check("the size of a line", LEAST % SIZE, 0)
        self.enough()
        self.once_more()
        self.large()
        self.too_large()
        self.in_the_way()
