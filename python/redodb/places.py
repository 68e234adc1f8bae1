"""The top of a tree, the paths under its .redo, and the program that is the database."""
import os
from stat import S_ISDIR, S_ISLNK, S_ISSOCK

HOME = b".redo"
LIBRARY = "libredodb.so.0"
"""The library's file, by which the system's loader finds it too."""
SHARED = 0o1002
"""The mode of a folder like /tmp: all may make files, and nobody may remove those of others."""

_FOLDER = os.O_RDONLY | os.O_DIRECTORY | os.O_NOFOLLOW | os.O_CLOEXEC
_PLACE = os.O_PATH | os.O_NOFOLLOW | os.O_CLOEXEC


class Places:
    """The paths of one tree. top is absolute and without symbolic links; all others are below
    top/.redo.

    >>> Places(b"/tree").socket
    b'/tree/.redo/server/socket'
    """

    __slots__ = ("top", "home", "log", "server", "socket", "lock", "starting", "errors")

    def __init__(self, top: bytes) -> None:
        self.top = top
        self.home = os.path.join(top, HOME)
        self.log = self.home + b"/log"
        self.server = self.home + b"/server"
        self.socket = self.server + b"/socket"
        self.lock = self.server + b"/lock"
        self.starting = self.server + b"/starting"
        self.errors = self.server + b"/errors"

    def make(self) -> None:
        """Make what is missing of .redo and the server's folder, which is the owner's alone.

        Raises UntrustedError, and OSError.
        """
        from . import private

        if not os.path.lexists(self.server):
            private.write_once(self.home + b"/.gitignore", b"*\n")
        os.close(private.open_folder(self.server, 0o700))

    def open_socket(self) -> int:
        """Return a descriptor by which the server's socket can be named.

        Raises UntrustedError, and OSError. What is the caller's without doubt is seen here.
        """
        files: list[int] = []
        try:
            for name, flags in ((self.home, _FOLDER), (b"server", _FOLDER), (b"socket", _PLACE)):
                files.append(os.open(name, flags, dir_fd=files[-1] if files else None))
            home, server, socket = map(os.fstat, files)
            if _is_mine(self.top, home) and server.st_uid == home.st_uid == socket.st_uid:
                if S_ISSOCK(socket.st_mode):
                    return files.pop()
        except OSError:
            pass
        finally:
            for file in files:
                os.close(file)
        from . import private

        return private.open_socket(self.socket)


def find_top(folder: bytes = b".") -> bytes | None:
    """Return the nearest folder upwards that has .redo, absolute and resolved, or None.

    Raises UntrustedError if it is somebody else's, and OtherTree if there is one more above it.
    """
    here = os.path.realpath(folder)
    top = None
    while True:
        home = _home_of(here)
        if home is not None and top is None:
            if not _is_mine(here, home):
                from . import private

                private.check_tree(here, home)
            top = here
        elif home is not None and top is not None:
            from . import private

            private.check_above(top, here, home)
        above = os.path.dirname(here)
        if above == here:
            return top
        here = above


def _home_of(folder: bytes) -> os.stat_result | None:
    """Return what is known of .redo in a folder, or None if that is no folder, and no link."""
    try:
        home = os.lstat(os.path.join(folder, HOME))
    except OSError:
        return None
    return home if S_ISDIR(home.st_mode) or S_ISLNK(home.st_mode) else None


def _is_mine(top: bytes, home: os.stat_result) -> bool:
    """Say whether a tree is the caller's without doubt."""
    folder, caller = os.stat(top), os.geteuid()
    is_shared = folder.st_mode & SHARED == SHARED
    is_own = home.st_uid == caller and folder.st_uid in (caller, 0)
    return is_own and not is_shared and S_ISDIR(home.st_mode)


def package_folder() -> bytes:
    """Return the folder that the package redodb is in."""
    return os.path.dirname(os.path.dirname(os.path.abspath(os.fsencode(__file__))))


def find_program() -> bytes | None:
    """Return the path of redodb-live, or None.

    It is $REDODB_LIVE, else that of the installation or repository that this package is in, else of
    PATH.
    """
    chosen = os.environb.get(b"REDODB_LIVE")
    if chosen:
        return os.path.abspath(chosen)
    home = os.path.dirname(package_folder())
    return _first_program(b"redodb-live", [home + b"/libexec", home, *_path()])


def find_server() -> bytes | None:
    """Return the path of redo-server, or None.

    It is $REDO_SERVER, else that of the installation or repository that this package is in, else of
    PATH, else that of the redo of PATH.
    """
    chosen = os.environb.get(b"REDO_SERVER")
    if chosen:
        return os.path.abspath(chosen)
    home = os.path.dirname(package_folder())
    folders = [home + b"/libexec", home + b"/redo/target/release", *_path()]
    return _first_program(b"redo-server", folders + _folders_of_redo())


def _folders_of_redo() -> list[bytes]:
    """Return the folders that have what belongs to the redo of PATH: its file's own, and libexec."""
    redo = _first_program(b"redo", _path())
    if redo is None:
        return []
    own = os.path.dirname(os.path.realpath(redo))
    return [own, os.path.dirname(own) + b"/libexec"]


def _path() -> list[bytes]:
    path = os.environb.get(b"PATH", os.fsencode(os.defpath)).split(b":")
    return list(filter(os.path.isabs, path))


def _first_program(name: bytes, folders: list[bytes]) -> bytes | None:
    """Return the path of a program in the first of these folders that has it."""
    for folder in folders:
        program = os.path.join(folder, name)
        if os.path.isfile(program) and os.access(program, os.X_OK):
            return program
    return None


def find_library() -> bytes | None:
    """Return the path of libredodb, or None.

    It is $REDODB_LIBRARY, else that of the installation or repository that this package is in, else
    that of the installation with the redo of PATH.
    """
    chosen = os.environb.get(b"REDODB_LIBRARY")
    if chosen:
        return os.path.abspath(chosen)
    home = os.path.dirname(package_folder())
    folders = [os.path.dirname(home), home + b"/library/out"]
    folders += [os.path.dirname(os.path.dirname(own)) for own in _folders_of_redo()[:1]]
    for folder in folders:
        library = os.path.join(folder, os.fsencode(LIBRARY))
        if os.path.isfile(library):
            return library
    return None
