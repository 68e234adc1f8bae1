"""A plain connection to the server: lines of bytes, with as few imports as can be.

A program that starts often asks by `Lines.ask` and reads the answers itself; `client.Client` has a
method for each command instead.
"""
import os
import select
import sys
import time
from _socket import (
    AF_UNIX,
    MSG_DONTWAIT,
    SO_PEERCRED,
    SOCK_CLOEXEC,
    SOCK_STREAM,
    SOL_SOCKET,
    socket,
)

from .errors import ProtocolError, ServerError
from .places import Places

TYPE_CHECKING = False
if TYPE_CHECKING:
    from collections.abc import Iterable

_MOST_READ = 1 << 16
_LOOKS = 60
"""So often an answer is looked for before the program sleeps. Most come within that."""


class Lines:
    """One connection, and its session, 0 if it has none. Requests go out together, while answers
    are read.

    deadline is a time of time.monotonic(), or None. After a TimeoutError the connection can be used
    on; answers that come late are kept in `late`, by the number of the request. `number` is the
    last one.
    """

    def __init__(self, connected: socket) -> None:
        self.session = 0
        self.number = 0
        self.late: dict[int, bytes] = {}
        self._socket = connected
        self._rest: list[bytes] = []
        self._unsent = b""

    def greet(self, deadline: float | None = None) -> bool:
        """Wait for the session, which may take the time until one is free.

        Return False if the server ended before. Raises ServerError, TimeoutError.
        """
        line = self._first_line(deadline)
        if not line:
            self.close()
            return False
        word, _, number = line.partition(b" ")
        if word != b"session" or not number.isdigit():
            self._complain(line)
        self.session = int(number)
        return True

    def ask(self, request: bytes, deadline: float | None = None) -> bytes:
        """Return the answer to a request. Raises ServerError, TimeoutError."""
        self.number += 1
        head = b"%d " % self.number
        self._unsent += b"%b%b\n" % (head, request)
        self._send()
        data = self._receive(deadline)
        if data.startswith(head) and data.find(b"\n") == len(data) - 1 and not self._rest:
            return data[len(head) : -1]  # this answer, whole and alone, as it is nearly always
        return self._answers(range(self.number, self.number + 1), data, deadline)[0]

    def ask_all(self, requests: "Iterable[bytes]", deadline: float | None = None) -> list[bytes]:
        """Return the answers to requests that are sent ahead, in their order. Raises as `ask`."""
        first = self.number + 1
        lines = [b"%d %b\n" % (number, request) for number, request in enumerate(requests, first)]
        self.number += len(lines)
        self._unsent += b"".join(lines)
        return self._answers(range(first, self.number + 1), b"", deadline)

    def fileno(self) -> int:
        """Return the file descriptor of the connection."""
        return self._socket.fileno()

    def detach(self) -> tuple[int, bytes]:
        """Give the descriptor away, on which all goes on, and what was read ahead."""
        return self._socket.detach(), b"".join(self._rest)

    def close(self) -> None:
        """End the connection, and with it the session."""
        self._socket.close()

    def _first_line(self, deadline: float | None) -> bytes:
        """Return a line before any request was answered, or b"" at the end."""
        lines: list[bytes] = []
        while not lines:
            data = self._receive(deadline)
            if not data:
                return b""
            lines = whole_lines(self._rest, data)
        self._keep(lines[1:], range(0), {})
        return lines[0]

    def _answers(self, wanted: range, data: bytes, deadline: float | None) -> list[bytes]:
        """Return the answers to requests, of which some may be in the data that came."""
        answers: dict[int, bytes] = {}
        self._keep(whole_lines(self._rest, data), wanted, answers)
        while len(answers) < len(wanted):
            self._keep(whole_lines(self._rest, self._next(deadline)), wanted, answers)
        return [answers[number] for number in wanted]

    def _next(self, deadline: float | None) -> bytes:
        """Send, and return what comes next. Raises ServerError if that is the end."""
        self._send()
        data = self._receive(deadline)
        if not data:
            self.close()
            raise ServerError("the server has ended")
        return data

    def _send(self) -> None:
        """Send as much as goes without waiting."""
        try:
            while self._unsent:
                self._unsent = self._unsent[self._socket.send(self._unsent, MSG_DONTWAIT) :]
        except BlockingIOError:
            pass
        except (BrokenPipeError, ConnectionResetError):
            self._unsent = b""

    def _receive(self, deadline: float | None) -> bytes:
        """Return what comes next; b"" at the end. What is unsent goes out meanwhile."""
        if deadline is None and not self._unsent:
            return self._received()
        poll = select.poll()
        while True:
            poll.register(self._socket, select.POLLIN | (select.POLLOUT if self._unsent else 0))
            rest = None if deadline is None else max(0.0, deadline - time.monotonic()) * 1000
            events = poll.poll(rest)
            if not events:
                raise TimeoutError("no answer from the server in time")
            if events[0][1] & ~select.POLLOUT:
                try:
                    return self._socket.recv(_MOST_READ)
                except ConnectionResetError:
                    return b""
            self._send()

    def _received(self) -> bytes:
        """Return what comes next; b"" at the end."""
        receive = self._socket.recv
        try:
            for _ in range(_LOOKS):
                try:
                    return receive(_MOST_READ, MSG_DONTWAIT)
                except BlockingIOError:
                    pass
            return receive(_MOST_READ)
        except ConnectionResetError:
            return b""

    def _keep(self, lines: list[bytes], wanted: range, answers: dict[int, bytes]) -> None:
        """Sort lines into the answers that are wanted, and the late ones."""
        for line in lines:
            number, _, answer = line.partition(b" ")
            if number == b"0" or not number.isdigit():
                self._complain(line)
            kept = answers if int(number) in wanted else self.late
            kept[int(number)] = answer

    def _complain(self, line: bytes) -> None:
        self.close()
        if line.startswith(b"0 failed "):
            raise ServerError(line[len(b"0 failed ") :].decode(errors="replace"))
        raise ProtocolError(f"not a line of the server: {line!r}")


def whole_lines(rest: list[bytes], data: bytes) -> list[bytes]:
    """Return the lines that end in what came now, without LF.

    rest is what came before of the first one, in pieces, and has then what came of the next one: so
    a long line is joined once, in time linear in its length.
    """
    lines = data.split(b"\n")
    last = lines.pop()
    if lines and rest:
        lines[0] = b"".join([*rest, lines[0]])
        rest.clear()
    if last:
        rest.append(last)
    return lines


def dial(places: Places) -> socket | None:
    """Return a connection to the server of a tree, or None if no server listens.

    Raises UntrustedError if the tree, or who listens, isn't trusted.
    """
    connection = socket(AF_UNIX, SOCK_STREAM | SOCK_CLOEXEC)
    try:
        place = places.open_socket()
        try:
            connection.connect(f"/proc/self/fd/{place}")  # its own path may be too long
        finally:
            os.close(place)
        peer = connection.getsockopt(SOL_SOCKET, SO_PEERCRED, 12)
        if int.from_bytes(peer[4:8], sys.byteorder) != os.geteuid():
            from . import private

            private.check_peer(connection, places.socket, places.top)
        return connection
    except (FileNotFoundError, ConnectionRefusedError):
        connection.close()
        return None
    except BaseException:
        connection.close()
        raise
