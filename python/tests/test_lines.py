"""Long lines of the server, which come in small pieces."""
import asyncio
import tracemalloc
import unittest
from _socket import socket
from typing import cast

import beside  # noqa: F401
from redodb.lines import Lines, whole_lines
from redodb.wire import Wire

PIECE = 1 << 10
LENGTH = 1 << 20


class Copied:
    """How many bytes were copied in all: those for which there was new room at one of the steps,
    whether it is free again or not."""

    def __init__(self) -> None:
        self.bytes = 0
        self._before = tracemalloc.get_traced_memory()[0]
        tracemalloc.reset_peak()

    def step(self) -> None:
        """End a step."""
        now, most = tracemalloc.get_traced_memory()
        self.bytes += most - self._before
        self._before = now
        tracemalloc.reset_peak()


class Pieces:
    """A connection on which pieces come."""

    def __init__(self, pieces: list[bytes], copied: Copied) -> None:
        self._pieces = iter(pieces)
        self._copied = copied

    def send(self, data: bytes, _flags: int) -> int:
        """Take all."""
        return len(data)

    def recv(self, _most: int, _flags: int = 0) -> bytes:
        """Return the next piece."""
        self._copied.step()
        return next(self._pieces)


def answer() -> tuple[bytes, list[bytes]]:
    """Return a long answer, and the line of it in pieces."""
    text = b"".join(b"%08x" % number for number in range(LENGTH // 8))
    line = b"1 " + text + b"\n"
    return text, [line[at : at + PIECE] for at in range(0, len(line), PIECE)]


class LongLines(unittest.TestCase):
    """Each byte of them is copied a few times, however many pieces there are."""

    def setUp(self) -> None:
        self.text, self.pieces = answer()
        tracemalloc.start()
        self.addCleanup(tracemalloc.stop)
        self.copied = Copied()

    def tearDown(self) -> None:
        self.copied.step()
        self.assertLess(self.copied.bytes, 8 * LENGTH)

    def test_come_to_the_client(self) -> None:
        lines = Lines(cast(socket, Pieces(self.pieces, self.copied)))
        self.assertEqual(lines.ask(b"names"), self.text)

    def test_come_to_the_async_client(self) -> None:
        async def work() -> bytes:
            wire = Wire()
            future = wire.send([b"names"])
            for piece in self.pieces:
                wire.get_buffer(-1)[: len(piece)] = piece
                wire.buffer_updated(len(piece))
                self.copied.step()
            return (await future)[0]

        self.assertEqual(asyncio.run(work()), self.text)


class WholeLines(unittest.TestCase):
    def test_are_those_that_end_in_what_came(self) -> None:
        pieces: list[bytes] = []
        for data, lines, left in (
            (b"a\nb\n", [b"a", b"b"], []),
            (b"c", [], [b"c"]),
            (b"", [], [b"c"]),
            (b"d", [], [b"c", b"d"]),
            (b"e\n\nf\ng", [b"cde", b"", b"f"], [b"g"]),
            (b"\n", [b"g"], []),
            (b"\nh\n", [b"", b"h"], []),
        ):
            with self.subTest(data=data):
                self.assertEqual(whole_lines(pieces, data), lines)
                self.assertEqual(pieces, left)
