"""What this package raises."""
TYPE_CHECKING = False
if TYPE_CHECKING:
    from .replies import FaultWord, Refusal


class RedodbError(Exception):
    """Any error of this package."""


class BadName(RedodbError, ValueError):
    """These bytes are no name of the database, or a name that no path has."""


class NameTooLong(BadName):
    """The name of this path has more than 255 bytes."""


class OtherTree(BadName):
    """The path is in another tree: a folder between the top and it has a .redo of its own."""


class UntrustedError(RedodbError):
    """A tree, or a file of it, is somebody else's, or a link where a file belongs."""


class RefusedError(RedodbError):
    """The database refused a command, and everything is as it was before.

    refusal is the reason; name is the name that exists, if that is the reason, and else None.
    """

    def __init__(self, refusal: "Refusal", name: bytes | None, request: bytes) -> None:
        text = f"{request.decode()}: refused {refusal.value}"
        super().__init__(text if name is None else f"{text} {name.decode()}")
        self.refusal = refusal
        self.name = name
        self.request = request


class FaultError(RedodbError):
    """A request was faulty, and changed nothing. word says what was wrong with it."""

    def __init__(self, word: "FaultWord", request: bytes) -> None:
        super().__init__(f"{request.decode(errors='replace')}: fault {word.value}")
        self.word = word
        self.request = request


class ServerError(RedodbError):
    """The server can't be reached or has ended; the text says why, as far as it is known."""


class LibraryError(RedodbError):
    """The library can't be loaded, or a call of it failed; the text says why."""


class ProtocolError(RedodbError):
    """The server sent what is no answer of its language."""
