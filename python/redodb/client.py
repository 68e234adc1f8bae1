"""The plain client: its connection, its questions, and what it asks of the server itself."""
from __future__ import annotations

import os
import time
from collections.abc import Iterable
from types import TracebackType

from . import reach, requests
from .commands import Commands
from .errors import ServerError
from .lines import Lines
from .places import find_top
from .replies import Forgotten, Granted, Ring
from .requests import TOP_LEVEL, Answer, Name, Request


class Client(Commands):
    """One connection to the server of a tree, which is one session of the database.

    top is the top of the tree; without it, that is the nearest folder upwards that has .redo. The
    server is started if there is none, and ends `idle` seconds after its last client. A call
    that isn't answered within timeout seconds raises TimeoutError; without a timeout it waits as
    long as it takes. All calls raise RefusedError, FaultError, and ServerError if the server has
    ended; the first one UntrustedError for a tree of another user, and OtherTree for one within
    another. Names may be text or bytes, and come as bytes.

    >>> with Client(top) as client:
    ...     client.file("main.c", "1")
    ...     client.lock("main.o")
    ...     client.start("main.o")
    ...     client.ifchange("main.o", ["main.c"])
    ...     client.done("main.o", "2")
    ...     client.unlock("main.o")
    ...     client.file("main.c", "3")
    ...     print(client.why("main.o"))
    Granted(number=1)
    Names(names=())
    Why(reason=<Reason.CHANGED: 'changed'>, name=b'main.c', chain=(b'main.o',))
    """

    def __init__(
        self, top: bytes | str | None = None, *, timeout: float | None = None, idle: float = 3.0
    ) -> None:
        self.top = top_or_nearest(top)
        self.timeout = timeout
        self._lines: Lines = reach.connect(self.top, timeout, idle)

    @property
    def session(self) -> int:
        """The number of the session, from 1 to 1,023."""
        return self._lines.session

    def close(self) -> None:
        """End the connection: the server ends the session."""
        self._lines.close()

    def __enter__(self) -> Client:
        return self

    def __exit__(
        self,
        kind: type[BaseException] | None,
        error: BaseException | None,
        trace: TracebackType | None,
    ) -> None:
        self.close()

    def ask(self, request: bytes) -> bytes:
        """Return the answer to one request as it is.

        >>> client.ask(b"state main.c")
        b'idle lock - file -'
        """
        return self._lines.ask(request, self._deadline(self.timeout))

    def ask_all(self, asked: Iterable[bytes]) -> list[bytes]:
        """Return the answers to any number of requests, which are sent ahead.

        >>> client.ask_all([b"file a 1", b"lock a", b"state a"])
        [b'ok', b'granted 1', b'idle lock 1 file 1']
        """
        return self._lines.ask_all(asked, self._deadline(self.timeout))

    def wait(
        self, target: Name, parent: Name = TOP_LEVEL, timeout: float | None = None
    ) -> Granted | Ring | Forgotten:
        """Take the lock of a target for the build of parent, as soon as it is free.

        The others that wait are served first. A Ring says that the wait can't end, since target
        needs parent in turn. timeout is that of the client if it isn't given. After a
        TimeoutError the wait is given up.

        >>> client.wait("app")
        Granted(number=1)
        >>> client.wait("util.o", "app")
        Granted(number=1)
        >>> client.wait("app", "util.o")
        Ring(names=(b'app', b'util.o', b'app'))
        """
        request = requests.wait(target, parent)
        try:
            return self._do(request, self.timeout if timeout is None else timeout)
        except TimeoutError:
            number = self._lines.number
            if not self.forget(target, parent):
                return request.result([self._lines.late.pop(number)])
            self._lines.late.pop(number, None)
            raise

    def forget(self, target: Name, parent: Name = TOP_LEVEL) -> bool:
        """Give up a wait of this session. False if none waits, since it was answered.

        >>> client.forget("app")
        False
        """
        return self._do(requests.forget(target, parent))

    def made(self, target: Name) -> str | None:
        """Return the stamp that the last `done` of a target gave, None if it gave none.

        A target that is built, and whose file has another stamp now, was changed by hand.

        >>> client.lock("a.o")
        Granted(number=1)
        >>> client.start("a.o")
        >>> client.done("a.o", "1")
        >>> client.file("a.o", "2")
        >>> client.made("a.o")
        '1'
        """
        return self._do(requests.made(target))

    def look(self, names: Iterable[Name] | None = None) -> int:
        """Have the server look at the files, and return how many differed from what was known.

        Without names it looks at all that are known and aren't building.

        >>> client.look(["no-such-file"])
        0
        """
        return self._do(requests.look(names))

    def group(self, number: int) -> None:
        """Have a process group killed when this connection ends.

        >>> import subprocess
        >>> process = subprocess.Popen(["sleep", "60"], start_new_session=True)
        >>> client.group(process.pid)
        >>> client.close()
        >>> process.wait()
        -9
        """
        self._do(requests.group(number))

    def ungroup(self, number: int) -> None:
        """Take back the call of `group`, for a group that has ended.

        >>> client.group(999999998)
        >>> client.ungroup(999999998)
        """
        self._do(requests.ungroup(number))

    def _do(self, request: Request[Answer], timeout: float | None = None) -> Answer:
        seconds = self.timeout if timeout is None else timeout
        deadline = None if seconds is None else time.monotonic() + seconds
        lines = request.lines
        if len(lines) == 1:
            return request.read(self._lines.ask(lines[0], deadline), lines[0])
        return request.result(self._lines.ask_all(lines, deadline))

    @staticmethod
    def _deadline(timeout: float | None) -> float | None:
        return None if timeout is None else time.monotonic() + timeout


def top_or_nearest(top: bytes | str | None) -> bytes:
    """Return the top of a tree, absolute and resolved. Raises ServerError if there is none."""
    if top is not None:
        return os.path.realpath(os.fsencode(top))
    found = find_top()
    if found is None:
        raise ServerError("no folder with .redo here or above")
    return found
