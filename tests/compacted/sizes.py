"""When redodb-live compacts a log without a word: by the sizes of its lines, of what comes before
them, and of the dump."""
from pathlib import Path

from logs import compacted
from shared.dumps import load
from shared.reference import Reference
from shared.talks import HEADER, Checks, ended, greeting

# lines that have fewer bytes never are reason enough
LEAST = 4 << 20
PLAIN = HEADER.encode()
# the shortest line that gives a file, and names of which many make a long dump
SHORTEST = len("1 file a 1 => ok\n")
LONG = [f"{number:0200}" for number in range(12_000)]


def other_stamp(reference: Reference, name: str) -> int:
    """A stamp that the file of a name hasn't."""
    return 2 if reference.known(name).file == "1" else 1


def filled(reference: Reference, size: int) -> bytes:
    """Lines of so many bytes, which say little: one file changes again and again, and then that of
    another name does. They are done."""
    count, rest = divmod(size, SHORTEST)
    first, other = other_stamp(reference, "a"), "b" * (1 + rest)
    pair = f"1 file a {first} => ok\n1 file a {3 - first} => ok\n"
    begin = (pair * (count // 2))[: SHORTEST * (count - 1)]
    last = f"1 file {other} {other_stamp(reference, other)}"
    for line in (*begin.splitlines()[-1:], last):
        reference.answer(1, line.partition(" => ")[0].removeprefix("1 "))
    return f"{begin}{last} => ok\n".encode()


def with_names() -> tuple[bytes, Reference]:
    """Lines that make many long names known, and what is known then."""
    reference = Reference()
    for name in LONG:
        reference.answer(1, f"file {name} 1")
    return "".join(f"1 file {name} 1 => ok\n" for name in LONG).encode(), reference


def balanced(less: int) -> tuple[bytes, Reference]:
    """A log of which the dump has half of the bytes, but for so many bytes that the log lacks; and
    what is known then."""
    lines, reference = with_names()
    # the two other names come to this
    dump = len(compacted(reference) + b"a 1\nb 1\n")
    sizes = (2 * (dump + rest) - len(PLAIN + lines) - less for rest in range(SHORTEST))
    size = next(size for rest, size in enumerate(sizes) if size % SHORTEST == rest)
    return PLAIN + lines + filled(reference, size), reference


class Sizes:
    """The cases, in a folder of their own."""

    def __init__(self, program: Path, folder: Path, checks: Checks) -> None:
        self.program, self.log, self.checks = program, folder / "log", checks

    def start(self, name: str, restored: int, wanted: bytes, words: tuple[str, ...]) -> None:
        got = ended(self.program, "", "--log", str(self.log), *words)
        self.checks.check(name, got, (0, greeting(restored), ""))
        self.checks.check(f"{name}: log", self.log.read_bytes() == wanted, True)

    def stays(self, name: str, text: bytes, lines: int, *words: str) -> None:
        """A log is left as it is."""
        self.log.write_bytes(text)
        self.start(name, lines, text, words)

    def shrinks(
        self, name: str, text: bytes, lines: int, reference: Reference, *words: str
    ) -> None:
        """A log is compacted."""
        self.log.write_bytes(text)
        self.start(name, lines, compacted(reference), words)

    def grown(self, name: str, head: bytes, least: int) -> bytes:
        """A log with this before its lines is compacted once they have so many bytes. Returns it
        then."""
        for size in (least - 1, least):
            reference = Reference() if head == PLAIN else load(head[len(PLAIN) :])
            text = head + filled(reference, size)
            lines = size // SHORTEST
            if size < least:
                self.stays(f"{name}: {size} bytes", text, lines)
                self.shrinks(f"{name}: {size} bytes, asked", text, lines, reference, "--compact")
            else:
                self.stays(f"{name}: {size} bytes, whole", text, lines, "--whole")
                self.shrinks(f"{name}: {size} bytes", text, lines, reference)
        return self.log.read_bytes()

    def again(self) -> None:
        """Whatever a dump has, the lines must have 4 MiB again, and twice the bytes of the dump."""
        small = self.grown("a log", PLAIN, LEAST)
        large = compacted(with_names()[1])
        self.checks.check("a large dump is large", LEAST // 2 < len(large) < LEAST, True)
        self.grown("after a small dump", small, LEAST)
        self.grown("after a large dump", large, 2 * len(large))

    def halves(self) -> None:
        """A dump that has more than half of the log's bytes isn't worth it."""
        for less in (1, 0):
            text, reference = balanced(less)
            half = len(compacted(reference)) * 2 - less
            self.checks.check(f"half of a log, {less} less", len(text), half)
            lines = text.count(b"\n") - 1
            name = f"{len(text)} bytes, of which the dump has half and {less}"
            if less:
                self.stays(name, text, lines)
                self.shrinks(f"{name}, asked", text, lines, reference, "--compact")
            else:
                self.shrinks(name, text, lines, reference)

    def conversation(self) -> None:
        """Lines that are reason enough at a start aren't in the midst of a conversation; the next
        start compacts the log."""
        self.log.unlink()
        reference = Reference()
        text = filled(reference, LEAST)
        asked = "".join(
            line.partition(" => ")[0] + "\n" for line in text.decode("ascii").splitlines()
        )
        got = ended(self.program, asked, "--log", str(self.log))
        self.checks.check("4 MiB are said", got == (0, greeting(0) + text.decode(), ""), True)
        self.checks.check("4 MiB are said: log", self.log.read_bytes() == PLAIN + text, True)
        lines = LEAST // SHORTEST
        self.start("4 MiB were said", lines, compacted(reference), ())

    def all(self) -> None:
        self.again()
        self.halves()
        self.conversation()
