"""Reaching the server of a tree, which is started if there is none."""
import fcntl
import os
import subprocess
import time

from . import private
from .errors import ServerError
from .lines import Lines, dial
from .places import Places, find_program, find_server

START_SECONDS = 10.0
_PAUSE = 0.02
_APPENDING = os.O_WRONLY | os.O_CREAT | os.O_APPEND


def connect(top: bytes, timeout: float | None = None, idle: float = 3.0) -> Lines:
    """Return a connection to the server of a tree, with its session.

    If no server listens, one is started, which ends `idle` seconds after its last client. More
    than 1,023 connections wait for a session, for ever or timeout seconds. Raises ServerError,
    TimeoutError.
    """
    places = Places(top)
    deadline = None if timeout is None else time.monotonic() + timeout
    give_up = time.monotonic() + START_SECONDS
    while True:
        lines = dialled(places) or started(places, idle, give_up)
        try:
            if lines.greet(deadline):
                return lines
        except BaseException:
            lines.close()
            raise
        if time.monotonic() > give_up:
            raise ServerError("the server ended at once" + _last_error(places, 0))


def dialled(places: Places) -> Lines | None:
    """Return a connection that has no session yet, or None if no server listens."""
    connection = dial(places)
    return None if connection is None else Lines(connection)


def started(places: Places, idle: float, give_up: float) -> Lines:
    """Start a server, and return a connection to it. One program at a time tries."""
    places.make()
    turn = private.open_file(places.starting, os.O_RDWR | os.O_CREAT)
    try:
        fcntl.flock(turn, fcntl.LOCK_EX)
        while True:
            lines = dialled(places)
            if lines is not None:
                return lines
            _start(places, idle)
            lines = dialled(places)
            if lines is not None:
                return lines
            if time.monotonic() > give_up:
                raise ServerError("the server can't be reached" + _last_error(places, 0))
            time.sleep(_PAUSE)  # another server is about to listen, or to end
    finally:
        os.close(turn)


def _start(places: Places, idle: float) -> None:
    """Start a server in the background, and return when it listens, or found another one there."""
    with open(private.open_file(places.errors, _APPENDING), "ab") as errors:
        before = os.fstat(errors.fileno()).st_size
        words = _program(places, idle)
        try:
            run = subprocess.run(
                words,
                env={**os.environb, b"REDODB_LIVE": find_program() or b""},
                stdin=subprocess.DEVNULL,
                stdout=subprocess.DEVNULL,
                stderr=errors,
                start_new_session=True,
                check=False,
            )
        except OSError as error:
            raise ServerError(f"{os.fsdecode(words[0])}: {error.strerror}") from error
    if run.returncode:
        raise ServerError("the server can't be started" + _last_error(places, before))


def _program(places: Places, idle: float) -> list[bytes]:
    """Return the words that start a server. Raises ServerError if there is no redo-server."""
    program = find_server()
    if program is None:
        raise ServerError("redo-server: not found; $REDO_SERVER names it")
    return [program, b"--detach", b"--idle", b"%r" % idle, b"--top", places.top]


def _last_error(places: Places, before: int) -> str:
    """Return `: ` and the last line of the server's errors after this many bytes, if any."""
    try:
        with open(private.open_file(places.errors, os.O_RDONLY), "rb") as errors:
            errors.seek(before)
            lines = errors.read().decode(errors="replace").splitlines()
    except OSError:
        return ""
    return f": {lines[-1]}" if lines else ""
