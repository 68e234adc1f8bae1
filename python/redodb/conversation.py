"""A conversation with redodb-live on its own: one program, one reader, no server."""

import os
import subprocess
from collections.abc import Iterable, Iterator
from types import TracebackType
from typing import IO

from .errors import ServerError
from .places import find_program

MOST_AHEAD = 32_768
"""The bytes of lines that are sent before their answers are read: a pipe holds twice as many."""
NOT_FOUND = "redodb-live: not found; $REDODB_LIVE names it"


class Conversation:
    """redodb-live, asked line by line. It ends with the `with` block, or by close.

    Raises ServerError if the program can't be started or has ended; the text is the program's
    own line.
    """

    def __init__(self, words: Iterable[bytes] = ()) -> None:
        program = find_program()
        if program is None:
            raise ServerError(NOT_FOUND)
        try:
            self._program = subprocess.Popen(
                [program, *words],
                stdin=subprocess.PIPE,
                stdout=subprocess.PIPE,
                stderr=subprocess.PIPE,
            )
        except OSError as error:
            raise ServerError(f"{os.fsdecode(program)}: {error.strerror}") from error
        self._line()

    def __enter__(self) -> "Conversation":
        return self

    def __exit__(
        self,
        kind: type[BaseException] | None,
        error: BaseException | None,
        trace: TracebackType | None,
    ) -> None:
        self.close()

    def close(self) -> None:
        """End the input, and wait for the program's end. Raises ServerError if it failed."""
        _, errors = self._program.communicate()
        if self._program.returncode:
            raise ServerError(errors.decode(errors="replace").strip() or "redodb-live ended")

    def ask(self, line: bytes) -> bytes:
        """Return the answer to a line that has one, both without LF."""
        return next(self.ask_all([line]))

    def ask_all(self, lines: Iterable[bytes]) -> Iterator[bytes]:
        """Return the answers to lines that have one answer each; many are sent ahead."""
        ahead: list[bytes] = []
        size = 0
        for line in lines:
            if ahead and size + len(line) >= MOST_AHEAD:
                yield from self._send(ahead)
                ahead, size = [], 0
            ahead.append(line)
            size += len(line) + 1
        yield from self._send(ahead)

    def _send(self, lines: list[bytes]) -> Iterator[bytes]:
        try:
            self._stream(self._program.stdin).write(b"".join(line + b"\n" for line in lines))
            self._stream(self._program.stdin).flush()
        except BrokenPipeError:
            pass  # what it answered before its end is read all the same, and then its end is met
        for _ in lines:
            yield self._line()

    def _line(self) -> bytes:
        line = self._stream(self._program.stdout).readline()
        if not line.endswith(b"\n"):
            self.close()
            raise ServerError("redodb-live ended")
        return line[:-1]

    @staticmethod
    def _stream(stream: IO[bytes] | None) -> IO[bytes]:
        assert stream is not None
        return stream
