"""The database in this process: libredodb by ctypes, with the calls of the client."""
from __future__ import annotations

import ctypes
import os
from collections.abc import Iterable
from types import TracebackType

from .commands import Commands
from .errors import LibraryError
from .places import LIBRARY, find_library
from .requests import Answer, Request

ABI = 1
"""The number of the interface of include/redodb.h that this module is written for."""
NOT_FOUND = "libredodb: not found; $REDODB_LIBRARY names it"
FIRST_ROOM = 4096
OK, FAULT, TOO_SMALL = range(3)


class Library:
    """The functions of the shared library. Raises LibraryError if there is none."""

    def __init__(self, path: bytes | None = None) -> None:
        name = os.fsdecode(path or find_library() or LIBRARY)
        try:
            library = ctypes.CDLL(name)
            self.restore = library.redodb_restore
            self.answer = library.redodb_answer
            self.close = library.redodb_close
            self.text = library.redodb_status_text
            abi = library.redodb_abi
        except (OSError, AttributeError) as error:
            raise LibraryError(NOT_FOUND if name == LIBRARY else f"{name}: {error}") from error
        handle, size, bytes_at = ctypes.c_void_p, ctypes.c_size_t, ctypes.c_char_p
        self.restore.argtypes = [ctypes.POINTER(handle), bytes_at, size, ctypes.c_void_p]
        sizes = [ctypes.POINTER(size), ctypes.POINTER(size)]
        self.answer.argtypes = [handle, bytes_at, size, ctypes.c_void_p, size, *sizes]
        self.close.argtypes = [ctypes.POINTER(handle)]
        self.text.restype = bytes_at
        abi.restype = ctypes.c_uint
        if abi() != ABI:
            raise LibraryError(f"{name}: its interface is {abi()}, and not {ABI}")

    def error(self, status: int) -> LibraryError:
        return LibraryError(f"libredodb: {self.text(status).decode()}")


class Database(Commands):
    """A database of this process, with the commands and questions of a client.

    log is what a log holds, from which it goes on; without it nothing is known. session is the
    session of the calls, from 1 to 65,535; `answer` takes lines of any session. One thread at a
    time uses it. All calls raise RefusedError, FaultError, and LibraryError if there is no library,
    no memory, or if log is none. It keeps the room of its longest answer, as that of `names` may
    be.

    >>> with Database() as database:
    ...     database.file("main.c", "1")
    ...     database.lock("main.o")
    ...     database.start("main.o")
    ...     database.ifchange("main.o", ["main.c"])
    ...     database.done("main.o", "2")
    ...     database.file("main.c", "3")
    ...     print(database.why("main.o"))
    Granted(number=1)
    Names(names=())
    Why(reason=<Reason.CHANGED: 'changed'>, name=b'main.c', chain=(b'main.o',))
    """

    def __init__(
        self, log: bytes = b"", *, session: int = 1, library: Library | None = None
    ) -> None:
        self._library = library or Library()
        self._handle = ctypes.c_void_p()
        self._room = ctypes.create_string_buffer(FIRST_ROOM)
        self._size, self._logged = ctypes.c_size_t(), ctypes.c_size_t()
        self._log = bytearray()
        self.session = session
        status = self._library.restore(ctypes.byref(self._handle), log, len(log), None)
        if status != OK:
            raise self._library.error(status)

    def close(self) -> None:
        """Free the database. Later calls raise LibraryError."""
        self._library.close(ctypes.byref(self._handle))

    def __enter__(self) -> Database:
        return self

    def __exit__(
        self,
        kind: type[BaseException] | None,
        error: BaseException | None,
        trace: TracebackType | None,
    ) -> None:
        self.close()

    def __del__(self) -> None:
        if getattr(self, "_handle", None):
            self.close()

    def answer(self, line: bytes) -> bytes:
        """Return the answer to a line of any session, which has no LF: one line or more.

        >>> with Database() as database:
        ...     database.answer(b"7 lock a")
        b'7 lock a => granted 1\\n'
        """
        status = self._try(line)
        if status == TOO_SMALL:
            self._room = ctypes.create_string_buffer(self._size.value)
            status = self._try(line)
        if status not in (OK, FAULT):
            raise self._library.error(status)
        said = ctypes.string_at(self._room, self._size.value)
        self._log += said[: self._logged.value]
        return said

    def take_logged(self) -> bytes:
        """Return the lines that a log takes, of all answers since the last such call."""
        taken = bytes(self._log)
        self._log.clear()
        return taken

    def ask(self, request: bytes) -> bytes:
        """Return the answer to one request of this session as it is.

        >>> with Database() as database:
        ...     database.ask(b"state main.c")
        b'idle lock - file -'
        """
        said = self.answer(b"%d %b" % (self.session, request))
        last = said[said.rfind(b"\n", 0, -1) + 1 : -1]
        told, arrow, reply = last.partition(b" => ")
        return reply if arrow else told.partition(b" ")[2]

    def ask_all(self, asked: Iterable[bytes]) -> list[bytes]:
        """Return the answers to any number of requests."""
        return [self.ask(request) for request in asked]

    def _try(self, line: bytes) -> int:
        status: int = self._library.answer(
            self._handle,
            line,
            len(line),
            self._room,
            len(self._room),
            ctypes.byref(self._size),
            ctypes.byref(self._logged),
        )
        return status

    def _do(self, request: Request[Answer], timeout: float | None = None) -> Answer:
        return request.result(self.ask_all(request.lines))
