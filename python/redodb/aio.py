"""The client for asyncio."""
from __future__ import annotations

import asyncio
import time
from collections.abc import Iterable
from types import TracebackType

from . import reach, requests
from .client import top_or_nearest
from .errors import ServerError
from .lines import Lines
from .places import Places
from .replies import Busy, Deps, Forgotten, Granted, Known, Names, NameState, Ring, Users, Why
from .requests import TOP_LEVEL, Answer, Name, Request
from .wire import Wire


class AsyncClient:
    """One connection to the server of a tree, which is one session of the database; as
    client.Client.

    Many calls may be under way at once; each is answered in its turn, and a `wait` when it can be.
    What is asked in one turn of the loop is sent together. A call that is cancelled was asked all
    the same, but for a `wait`: that is given up, and what it was granted too late is unlocked.

    >>> import asyncio
    >>> async def build():
    ...     async with AsyncClient(top) as client:
    ...         await client.lock("main.o")
    ...         first, second = await asyncio.gather(client.why("main.o"), client.state("main.o"))
    ...         return first, second.holder == client.session
    >>> asyncio.run(build())
    (None, True)
    """

    def __init__(
        self, top: bytes | str | None = None, *, timeout: float | None = None, idle: float = 3.0
    ) -> None:
        self.top = top_or_nearest(top)
        self.timeout = timeout
        self.session = 0
        self._idle = idle
        self._connected: Wire | None = None

    async def connect(self, lines: Lines | None = None) -> None:
        """Connect to the server, which is started if there is none; or go on with a plain
        connection.

        lines is one that has its session, and isn't used any more. Raises ServerError,
        TimeoutError.
        """
        async with asyncio.timeout(self.timeout):
            if lines is not None:
                await self._take(lines)
                return
            places = Places(self.top)
            give_up = time.monotonic() + reach.START_SECONDS
            while not self.session:
                if time.monotonic() > give_up:
                    raise ServerError("the server ended at once")
                found = reach.dialled(places)
                if found is None:
                    found = await asyncio.to_thread(reach.started, places, self._idle, give_up)
                await self._take(found)

    async def close(self) -> None:
        """End the connection: the server ends the session."""
        if self._connected is not None:
            await self._connected.close()

    async def __aenter__(self) -> AsyncClient:
        await self.connect()
        return self

    async def __aexit__(
        self,
        kind: type[BaseException] | None,
        error: BaseException | None,
        trace: TracebackType | None,
    ) -> None:
        await self.close()

    async def ask(self, request: bytes) -> bytes:
        """Return the answer to one request as it is."""
        return (await self.ask_all([request]))[0]

    async def ask_all(self, asked: Iterable[bytes]) -> list[bytes]:
        """Return the answers to any number of requests, which are sent ahead."""
        return await self._within(self._wire.send(list(asked)), self.timeout)

    async def file(self, name: Name, stamp: str) -> None:
        """Report that there is a file, with this stamp."""
        await self._do(requests.file(name, stamp))

    async def gone(self, name: Name) -> None:
        """Report that there is no file."""
        await self._do(requests.gone(name))

    async def lock(self, target: Name) -> Granted | Busy:
        """Take the lock of a name, if nobody holds it. `wait` waits for it."""
        return await self._do(requests.lock(target))

    async def unlock(self, target: Name) -> None:
        """Release a lock."""
        await self._do(requests.unlock(target))

    async def start(self, target: Name) -> None:
        """Begin the build of a target whose lock is held."""
        await self._do(requests.start(target))

    async def ifchange(self, target: Name, names: Iterable[Name]) -> Names:
        """Report that the build of target depends on names, and return the stale ones of them."""
        return await self._do(requests.ifchange(target, names))

    async def ifcreate(self, target: Name, names: Iterable[Name]) -> None:
        """Report that the build of target met no file of these names."""
        await self._do(requests.ifcreate(target, names))

    async def always(self, target: Name) -> None:
        """Report that the target is to be built every time."""
        await self._do(requests.always(target))

    async def stamp(self, target: Name, content: bytes) -> str:
        """Stamp the present build with at most some 4,000 bytes, and return their SHA-1."""
        return await self._do(requests.stamp(target, content))

    async def done(self, target: Name, stamp: str | None) -> None:
        """Report that the target is built, and its file's stamp; None if it has no file."""
        await self._do(requests.done(target, stamp))

    async def failed(self, target: Name) -> None:
        """Report that the build of the target failed."""
        await self._do(requests.failed(target))

    async def ood(self) -> Names:
        """Return the targets that have a file and are out of date."""
        return await self._do(requests.ood())

    async def targets(self) -> Names:
        """Return the targets that have a file."""
        return await self._do(requests.targets())

    async def sources(self) -> Names:
        """Return the files that targets depend on and that are no targets."""
        return await self._do(requests.sources())

    async def why(self, target: Name) -> Why | None:
        """Return why the target is out of date; None if it isn't."""
        return await self._do(requests.why(target))

    async def deps(self, target: Name) -> Deps:
        """Return the rows of a target."""
        return await self._do(requests.deps(target))

    async def users(self, name: Name) -> Users:
        """Return the targets with rows on a name."""
        return await self._do(requests.users(name))

    async def state(self, name: Name) -> NameState:
        """Return the state of a name."""
        return await self._do(requests.state(name))

    async def names(self) -> tuple[Known, ...]:
        """Return what is known of all names, in the order in which they became known.

        Of a large tree that takes memory, or fails, as Client.names says.
        """
        return await self._do(requests.names())

    async def wait(
        self, target: Name, parent: Name = TOP_LEVEL, timeout: float | None = None
    ) -> Granted | Ring | Forgotten:
        """Take the lock of a target as soon as it is free, as Client.wait."""
        request = requests.wait(target, parent)
        future = self._wire.send(request.lines)
        seconds = self.timeout if timeout is None else timeout
        try:
            try:
                await self._within(asyncio.shield(future), seconds)
            except TimeoutError:
                if await self.forget(target, parent):
                    raise
        except asyncio.CancelledError:
            self._abandon(future, target, parent)
            raise
        return request.result(await future)

    async def forget(self, target: Name, parent: Name = TOP_LEVEL) -> bool:
        """Give up a wait of this session. False if none waits, since it was answered."""
        return await self._do(requests.forget(target, parent))

    async def made(self, target: Name) -> str | None:
        """Return the stamp that the last `done` of a target gave, None if it gave none."""
        return await self._do(requests.made(target))

    async def look(self, names: Iterable[Name] | None = None) -> int:
        """Have the server look at the files, and return how many differed from what was known."""
        return await self._do(requests.look(names))

    async def group(self, number: int) -> None:
        """Have a process group killed when this connection ends."""
        await self._do(requests.group(number))

    async def ungroup(self, number: int) -> None:
        """Take back the call of `group`, for a group that has ended."""
        await self._do(requests.ungroup(number))

    async def end(self) -> None:
        """Fail what this session builds, and release what it holds. The session goes on."""
        await self._do(requests.end())

    @property
    def _wire(self) -> Wire:
        if self._connected is None:
            raise ServerError("not connected yet")
        return self._connected

    async def _take(self, lines: Lines) -> None:
        """Go on with a connection; the session is 0 if the server ended before it came."""
        wire = Wire()
        session = lines.session
        await wire.take(*lines.detach(), session)
        try:
            self.session = await wire.greeted or 0
        except BaseException:
            wire.abort()
            raise
        self._connected = wire

    async def _do(self, request: Request[Answer]) -> Answer:
        return request.result(await self._within(self._wire.send(request.lines), self.timeout))

    @staticmethod
    async def _within(future: asyncio.Future[list[bytes]], timeout: float | None) -> list[bytes]:
        if timeout is None:
            return await future
        async with asyncio.timeout(timeout):
            return await future

    def _abandon(self, future: asyncio.Future[list[bytes]], target: Name, parent: Name) -> None:
        """Give up a wait, and unlock what it was granted all the same."""

        def answered(ended: asyncio.Future[list[bytes]]) -> None:
            if (
                not ended.cancelled()
                and ended.exception() is None
                and ended.result()[0].startswith(b"granted ")
            ):
                self._quietly(requests.unlock(target))

        self._quietly(requests.forget(target, parent))
        future.add_done_callback(answered)

    def _quietly(self, request: Request[Answer]) -> None:
        """Send a request whose answer nobody waits for."""
        self._wire.send(request.lines).add_done_callback(lambda ended: ended.exception())
