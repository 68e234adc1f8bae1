"""The commands and questions of the database, as methods of the plain client and of Database."""
from __future__ import annotations

from abc import ABC, abstractmethod
from collections.abc import Iterable

from . import requests
from .replies import Busy, Deps, Granted, Known, Names, NameState, Users, Why
from .requests import Answer, Name, Request


class Commands(ABC):
    """A method for each command and question. For what they raise see client.Client and
    _native.Database."""

    @abstractmethod
    def _do(self, request: Request[Answer], timeout: float | None = None) -> Answer:
        """Ask, and return what the answer says."""

    def file(self, name: Name, stamp: str) -> None:
        """Report that there is a file, with this stamp.

        >>> client.file("a.c", "10")
        >>> client.state("a.c").stamp
        '10'
        """
        self._do(requests.file(name, stamp))

    def gone(self, name: Name) -> None:
        """Report that there is no file.

        >>> client.gone("a.c")
        >>> client.state("a.c").stamp is None
        True
        """
        self._do(requests.gone(name))

    def lock(self, target: Name) -> Granted | Busy:
        """Take the lock of a name, if nobody holds it. `wait` waits for it.

        >>> client.lock("a.o"), client.lock("a.o")
        (Granted(number=1), Busy(number=1))
        """
        return self._do(requests.lock(target))

    def unlock(self, target: Name) -> None:
        """Release a lock.

        >>> client.unlock("a.o")
        Traceback (most recent call last):
        redodb.errors.RefusedError: unlock a.o: refused not-locked
        """
        self._do(requests.unlock(target))

    def start(self, target: Name) -> None:
        """Begin the build of a target whose lock is held.

        >>> client.lock("a.o")
        Granted(number=1)
        >>> client.start("a.o")
        >>> client.state("a.o").state
        <State.BUILDING: 'building'>
        """
        self._do(requests.start(target))

    def ifchange(self, target: Name, names: Iterable[Name]) -> Names:
        """Report that the build of target depends on names, and return the stale ones of them.

        More names than one command takes are several commands.

        >>> client.lock("a.o")
        Granted(number=1)
        >>> client.start("a.o")
        >>> list(client.ifchange("a.o", ["a.c", "a.h"]))
        [b'a.c', b'a.h']
        """
        return self._do(requests.ifchange(target, names))

    def ifcreate(self, target: Name, names: Iterable[Name]) -> None:
        """Report that the build of target met no file of these names. As ifchange, of any number of
        names.

        >>> client.lock("a.o")
        Granted(number=1)
        >>> client.start("a.o")
        >>> client.ifcreate("a.o", ["config.h"])
        >>> client.deps("a.o")
        Deps(changed=(), created=(b'config.h',), always=False)
        """
        self._do(requests.ifcreate(target, names))

    def always(self, target: Name) -> None:
        """Report that the target is to be built every time.

        >>> client.lock("a.o")
        Granted(number=1)
        >>> client.start("a.o")
        >>> client.always("a.o")
        >>> client.done("a.o", "1")
        >>> client.why("a.o").reason
        <Reason.ALWAYS: 'always'>
        """
        self._do(requests.always(target))

    def stamp(self, target: Name, content: bytes) -> str:
        """Stamp the present build with content of at most some 4,000 bytes, and return its SHA-1.

        >>> client.lock("a.o")
        Granted(number=1)
        >>> client.start("a.o")
        >>> client.stamp("a.o", b"abc")
        'a9993e364706816aba3e25717850c26c9cd0d89d'
        """
        return self._do(requests.stamp(target, content))

    def done(self, target: Name, stamp: str | None) -> None:
        """Report that the target is built, and its file's stamp; None if it has no file.

        >>> client.lock("all")
        Granted(number=1)
        >>> client.start("all")
        >>> client.done("all", None)
        >>> client.state("all")
        NameState(state=<State.BUILT: 'built'>, builder=None, holder=1, stamp=None)
        """
        self._do(requests.done(target, stamp))

    def failed(self, target: Name) -> None:
        """Report that the build of the target failed.

        >>> client.lock("a.o")
        Granted(number=1)
        >>> client.start("a.o")
        >>> client.failed("a.o")
        >>> client.why("a.o")
        Why(reason=<Reason.FAILED: 'failed'>, name=b'a.o', chain=(b'a.o',))
        """
        self._do(requests.failed(target))

    def ood(self) -> Names:
        """Return the targets that have a file and are out of date.

        >>> [name for name in client.ood()]
        []
        """
        return self._do(requests.ood())

    def targets(self) -> Names:
        """Return the targets that have a file.

        >>> len(client.targets())
        0
        """
        return self._do(requests.targets())

    def sources(self) -> Names:
        """Return the files that targets depend on and that are no targets.

        >>> b"a.c" in client.sources()
        False
        """
        return self._do(requests.sources())

    def why(self, target: Name) -> Why | None:
        """Return why the target is out of date; None if it isn't.

        >>> client.why("a.o") is None
        True
        """
        return self._do(requests.why(target))

    def deps(self, target: Name) -> Deps:
        """Return the rows of a target.

        >>> client.deps("a.o")
        Deps(changed=(), created=(), always=False)
        """
        return self._do(requests.deps(target))

    def users(self, name: Name) -> Users:
        """Return the targets with rows on a name.

        >>> client.users("a.c")
        Users(changed=(), created=())
        """
        return self._do(requests.users(name))

    def state(self, name: Name) -> NameState:
        """Return the state of a name.

        >>> client.state("a.o")
        NameState(state=<State.IDLE: 'idle'>, builder=None, holder=None, stamp=None)
        """
        return self._do(requests.state(name))

    def names(self) -> tuple[Known, ...]:
        """Return what is known of all names, in the order in which they became known.

        The answer may have some hundreds of bytes for each name. To read it takes three times as
        much memory besides, and what is returned twice as much. A server closes the connection
        instead of an answer above 128 MiB, and that raises ServerError.

        >>> client.file("a.c", "1")
        >>> client.names()[-1]
        Known(name=b'a.c', state=<State.IDLE: 'idle'>, stamp='1', builds=0, done=None, digest=None)
        """
        return self._do(requests.names())

    def end(self) -> None:
        """Fail what this session builds, and release what it holds. The session goes on.

        >>> client.lock("a.o")
        Granted(number=1)
        >>> client.end()
        >>> client.state("a.o").holder is None
        True
        """
        self._do(requests.end())
