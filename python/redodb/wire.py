"""The connection of the async client: requests that are answered by futures."""
from __future__ import annotations

import asyncio
import socket
from collections.abc import Sequence
from typing import Any

from .errors import ProtocolError, RedodbError, ServerError
from .lines import whole_lines

_MOST_READ = 1 << 16


class Batch:
    """Requests that were sent together, and their answers so far."""

    def __init__(self, first: int, count: int, future: asyncio.Future[list[bytes]]) -> None:
        self.future = future
        self._first = first
        self._answers = [b""] * count
        self._left = count

    def take(self, number: int, answer: bytes) -> None:
        """Take one answer; the last one ends the future."""
        self._answers[number - self._first] = answer
        self._left -= 1
        if not self._left and not self.future.done():
            self.future.set_result(self._answers)


class Wire(asyncio.BufferedProtocol):
    """One connection to the server. Requests of one turn of the loop leave by one write.

    `greeted` ends with the number of the session, or None if the server ended before. What is
    read comes into one buffer, since a new one for each read would cost more than the read.
    """

    def __init__(self) -> None:
        self._loop = asyncio.get_running_loop()
        self.greeted: asyncio.Future[int | None] = self._loop.create_future()
        self._number = 0
        self._waiting: dict[int, Batch] = {}
        self._out: list[bytes] = []
        self._buffer = memoryview(bytearray(_MOST_READ))
        self._rest: list[bytes] = []
        self._error: RedodbError | None = None
        self._transport: asyncio.Transport | None = None
        self._lost: asyncio.Future[None] = self._loop.create_future()

    async def take(self, descriptor: int, rest: bytes, session: int) -> None:
        """Take over a connection, what was read of it, and its session, or 0 for none yet."""
        if session:
            self.greeted.set_result(session)
        connection = socket.socket(fileno=descriptor)
        connection.setblocking(False)
        await self._loop.create_unix_connection(lambda: self, sock=connection)
        if rest:
            self._received(rest)

    def send(self, requests: Sequence[bytes]) -> asyncio.Future[list[bytes]]:
        """Send requests; the future ends with their answers."""
        future: asyncio.Future[list[bytes]] = self._loop.create_future()
        if self._error is not None:
            future.set_exception(self._error)
        elif not requests:
            future.set_result([])
        else:
            first = self._number + 1
            self._number += len(requests)
            batch = Batch(first, len(requests), future)
            if not self._out:
                self._loop.call_soon(self._flush)
            for number, request in enumerate(requests, first):
                self._waiting[number] = batch
                self._out.append(b"%d %b\n" % (number, request))
        return future

    def abort(self) -> None:
        """End the connection without waiting for that."""
        if self._transport is not None:
            self._transport.abort()

    async def close(self) -> None:
        """End the connection."""
        self._fail(ServerError("the connection is closed"))
        if self._transport is not None:
            self._transport.close()
            await asyncio.shield(self._lost)

    def connection_made(self, transport: asyncio.BaseTransport) -> None:
        assert isinstance(transport, asyncio.Transport)
        self._transport = transport

    def get_buffer(self, sizehint: int) -> memoryview:
        return self._buffer

    def buffer_updated(self, nbytes: int) -> None:
        self._received(bytes(self._buffer[:nbytes]))

    def _received(self, data: bytes) -> None:
        for line in whole_lines(self._rest, data):
            number, _, answer = line.partition(b" ")
            batch = self._waiting.pop(int(number), None) if number.isdigit() else None
            if batch is not None:
                batch.take(int(number), answer)
            elif not self._is_greeting(number, answer):
                self._complain(line)
                return

    def connection_lost(self, error: Exception | None) -> None:
        self._transport = None
        if not self.greeted.done():
            self.greeted.set_result(None)
        self._fail(ServerError("the server has ended"))
        if not self._lost.done():
            self._lost.set_result(None)

    def _is_greeting(self, word: bytes, number: bytes) -> bool:
        if word != b"session" or not number.isdigit() or self.greeted.done():
            return False
        self.greeted.set_result(int(number))
        return True

    def _flush(self) -> None:
        out, self._out = self._out, []
        if self._transport is not None:
            self._transport.write(b"".join(out))

    def _complain(self, line: bytes) -> None:
        if line.startswith(b"0 failed "):
            self._fail(ServerError(line[len(b"0 failed ") :].decode(errors="replace")))
        else:
            self._fail(ProtocolError(f"not a line of the server: {line!r}"))
        self.abort()

    def _fail(self, error: RedodbError) -> None:
        """End all that waits for an answer."""
        if self._error is not None:
            return
        self._error = error
        waiting, self._waiting = self._waiting, {}
        _end(self.greeted, error)
        for batch in waiting.values():
            _end(batch.future, error)


def _end(future: asyncio.Future[Any], error: RedodbError) -> None:
    """End a future by an error, which nobody needs to ask for."""
    if not future.done():
        future.set_exception(error)
        future.exception()
