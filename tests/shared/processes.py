"""Starts a program many times, each time with another text, as cheaply as can be."""
import os
from pathlib import Path

# a status, standard output and standard error
Ended = tuple[int, str, str]
# the file that standard input is, by its name
FILE = "/dev/stdin"
NO_VARIABLES: dict[str, str] = {}


def put(file: int, text: bytes) -> None:
    """Puts a text into an open file, in place of what was there; it is read from the beginning."""
    os.ftruncate(file, 0)
    os.pwrite(file, text, 0)
    os.lseek(file, 0, os.SEEK_SET)


def text_in(file: int) -> str:
    """All that was written to an open file. A byte is a letter."""
    return os.pread(file, os.fstat(file).st_size, 0).decode("latin-1")


class Program:
    """A program whose standard input, output and error are files in memory, which stay open from
    one run to the next."""

    def __init__(self, program: Path) -> None:
        self.program = str(program)
        self.files = [os.memfd_create(name) for name in ("input", "output", "errors")]
        self.actions = [(os.POSIX_SPAWN_DUP2, file, to) for to, file in enumerate(self.files)]

    def ended(self, text: bytes, *words: str) -> Ended:
        """What the program does with these words, and this text as standard input."""
        for file, new in zip(self.files, (text, b"", b"")):
            put(file, new)
        process = os.posix_spawn(self.program, (self.program, *words), NO_VARIABLES,
                                 file_actions=self.actions)
        status = os.waitstatus_to_exitcode(os.waitpid(process, 0)[1])
        return status, text_in(self.files[1]), text_in(self.files[2])
