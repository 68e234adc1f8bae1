"""What is private: a tree's .redo with all below it, and who may have a say there.

Whoever can put files there can have redo do what they like. So it is opened by descriptors, never
through a link, and belongs to the caller, to root, or to the owner of a tree that is trusted.
"""
import os
import sys
from _socket import SO_PEERCRED, SOL_SOCKET, socket
from stat import S_ISDIR, S_ISLNK, S_ISREG

from .errors import OtherTree, UntrustedError
from .places import HOME, SHARED

_FOLDER = os.O_RDONLY | os.O_DIRECTORY | os.O_NOFOLLOW | os.O_CLOEXEC
_FILE = os.O_NOFOLLOW | os.O_NONBLOCK | os.O_CLOEXEC


def shown(path: bytes) -> str:
    """Return a path as it is printed: control characters are written \\xNN."""
    text = os.fsdecode(path)
    if text.isprintable():
        return text
    return "".join(f"\\x{ord(one):02X}" if ord(one) < 32 or one == "\x7f" else one for one in text)


def check_tree(top: bytes, home: os.stat_result | None) -> None:
    """Raise UntrustedError if a tree isn't the caller's, and nobody said that it is trusted.

    home is what is known of its .redo, if that is there.
    """
    folder = os.stat(top)
    if folder.st_mode & SHARED == SHARED:
        raise UntrustedError(
            f"{shown(top)} is no top of a tree, since all may write to it: mkdir .redo in a"
            " folder of your own makes that one the top"
        )
    if home is not None and not S_ISDIR(home.st_mode):
        raise _complaint(os.path.join(top, HOME), True)
    users, foreign = _users(), None
    if home is not None and home.st_uid not in users:
        foreign = os.path.join(top, HOME)
        owner = home.st_uid
    elif folder.st_uid not in (0, *users):
        foreign = top
        owner = folder.st_uid
    if foreign is not None and not _is_named(top):
        from shlex import quote

        raise UntrustedError(
            f"{shown(foreign)} belongs to {_name_of(owner)}, not to you: if you trust it, set"
            f" REDO_TRUST={quote(shown(top))}; else mkdir .redo in the top folder of your own tree"
        )


def check_above(top: bytes, above: bytes, home: os.stat_result) -> None:
    """Raise OtherTree if a folder above a top, which has .redo, is the top of a tree as well."""
    try:
        check_tree(above, home)
    except UntrustedError:
        return
    raise two_trees(top, above)


def is_trusted(user: int, top: bytes) -> bool:
    """Say whether files and processes of a user may have a say in a tree that was checked."""
    return user in (os.geteuid(), 0) or user in _users() or user == os.stat(top).st_uid


def check_owner(path: bytes, status: os.stat_result, top: bytes) -> None:
    """Raise UntrustedError if a file of a tree doesn't belong to one who is trusted."""
    if not is_trusted(status.st_uid, top):
        owner = _name_of(status.st_uid)
        raise UntrustedError(f"{shown(path)} belongs to {owner}, not to you")


def check_peer(connection: socket, path: bytes, top: bytes) -> None:
    """Raise UntrustedError if the other end of a socket isn't one who is trusted."""
    peer = connection.getsockopt(SOL_SOCKET, SO_PEERCRED, 12)
    user = int.from_bytes(peer[4:8], sys.byteorder)
    if not is_trusted(user, top):
        raise UntrustedError(f"{shown(path)} is used by {_name_of(user)}, not by you")


def two_trees(inner: bytes, outer: bytes) -> OtherTree:
    """Return the error about a tree in a tree."""
    homes = [shown(os.path.join(top, HOME)) for top in (inner, outer)]
    return OtherTree(
        f"{homes[0]} lies in the tree of {homes[1]}, and a tree has one database: remove one of the"
        " two, and the targets that it knows, which are sources for the other"
    )


def open_folder(path: bytes, mode: int | None = None) -> int:
    """Return a descriptor of .redo, or of a folder below it.

    With a mode, what is missing is made, and the folder has no more rights than that. Raises
    UntrustedError, and OSError.
    """
    top, names = _parted(path)
    folder = _open_home(top, mode is not None)
    here = os.path.join(top, HOME)
    for name in names:
        above, here = folder, os.path.join(here, name)
        try:
            folder = _open_below(above, here, top, mode)
        finally:
            os.close(above)
    return folder


def open_file(path: bytes, flags: int, mode: int = 0o600) -> int:
    """Return a descriptor of a regular file below .redo, as os.open.

    Raises UntrustedError if the file has another name too, or isn't of one who is trusted, and
    OSError.
    """
    top, _ = _parted(path)
    folder = open_folder(os.path.dirname(path))
    try:
        while True:
            try:
                return _opened(folder, path, flags, top)
            except FileNotFoundError:
                if not flags & os.O_CREAT:
                    raise
            file = _made(folder, path, flags, mode, top)
            if file is not None:
                return file
    finally:
        os.close(folder)


def write_once(path: bytes, text: bytes) -> None:
    """Write a file of .redo, unless there is anything of its name. Raises OSError."""
    top, _ = _parted(path)
    folder = open_folder(os.path.dirname(path), 0o755)
    try:
        file = _made(folder, path, os.O_WRONLY, 0o666, top)
        if file is not None:
            with open(file, "wb") as new:
                new.write(text)
    except OSError:
        _remove(os.path.basename(path), folder)
        raise
    finally:
        os.close(folder)


def _remove(name: bytes, folder: int) -> None:
    """Remove a file of an open folder, if it is there. Raises OSError."""
    try:
        os.unlink(name, dir_fd=folder)
    except FileNotFoundError:
        pass


def gives_away(top: bytes) -> bool:
    """Say whether the caller is root in somebody's tree, so that what it makes is the owner's."""
    return os.geteuid() == 0 and os.stat(top).st_uid != 0


def give_away(file: int, top: bytes) -> None:
    """Give an open file that the caller made to the owner of the tree, if the caller is root."""
    if gives_away(top):
        owner = os.stat(top)
        try:
            os.chown(f"/proc/self/fd/{file}", owner.st_uid, owner.st_gid)
        except OSError:
            pass  # this root may not, as in a namespace that hasn't got that user


def open_socket(path: bytes) -> int:
    """Return a descriptor by which the socket of a path below .redo can be named.

    Raises UntrustedError if it is a link, and OSError.
    """
    folder = open_folder(os.path.dirname(path))
    flags = os.O_PATH | os.O_NOFOLLOW | os.O_CLOEXEC
    try:
        file = os.open(os.path.basename(path), flags, dir_fd=folder)
    finally:
        os.close(folder)
    if S_ISLNK(os.fstat(file).st_mode):
        os.close(file)
        raise _complaint(path, False)
    return file


def _parted(path: bytes) -> tuple[bytes, list[bytes]]:
    """Return the top of a path of .redo or below it, and the names that lead there."""
    top, _, inside = path.rpartition(b"/" + HOME)
    return top or b"/", inside.split(b"/")[1:]


def _users() -> tuple[int, ...]:
    """Return whose trees are the caller's: to root, also those of the user who called sudo."""
    caller = os.geteuid()
    by_sudo = os.environb.get(b"SUDO_UID", b"") if caller == 0 else b""
    return (caller, int(by_sudo)) if by_sudo.isdigit() else (caller,)


def _is_named(top: bytes) -> bool:
    """Say whether REDO_TRUST has a top, or `*` for all."""
    names = os.environb.get(b"REDO_TRUST", b"").split(b":")
    return b"*" in names or top in [os.path.realpath(name) for name in names if name[:1] == b"/"]


def _name_of(user: int) -> str:
    from pwd import getpwuid

    try:
        return f"user {user} ({getpwuid(user).pw_name})"
    except KeyError:
        return f"user {user}"


def _open_home(top: bytes, makes: bool) -> int:
    """Return a descriptor of .redo of a tree that is trusted."""
    path = os.path.join(top, HOME)
    try:
        home = _folder(path, path, None)
    except FileNotFoundError:
        if not makes:
            raise
        check_tree(top, None)
        _make(path, path, 0o755, None)
        home = _folder(path, path, None)
    try:
        check_tree(top, os.fstat(home))
        if makes:
            _give_folder(home, top)
    except BaseException:
        os.close(home)
        raise
    return home


def _open_below(above: int, path: bytes, top: bytes, mode: int | None) -> int:
    """Return a descriptor of a folder in an open one; with a mode, as open_folder."""
    name = os.path.basename(path)
    try:
        folder = _folder(name, path, above)
    except FileNotFoundError:
        if mode is None:
            raise
        _make(name, path, mode, above)
        folder = _folder(name, path, above)
    try:
        status = os.fstat(folder)
        check_owner(path, status, top)
        if mode is not None and status.st_mode & 0o777 & ~mode:
            os.fchmod(folder, mode)
        if mode is not None:
            _give_folder(folder, top)
    except BaseException:
        os.close(folder)
        raise
    return folder


def _folder(name: bytes, path: bytes, above: int | None) -> int:
    try:
        return os.open(name, _FOLDER, dir_fd=above)
    except OSError as cause:
        raise _refusal(path, cause, True) from cause


def _make(name: bytes, path: bytes, mode: int, above: int | None) -> None:
    """Make a folder, if nobody else does."""
    try:
        os.mkdir(name, mode, dir_fd=above)
    except FileExistsError:
        pass
    except OSError as cause:
        raise OSError(cause.errno, cause.strerror, path) from cause


def _give_folder(folder: int, top: bytes) -> None:
    """Give root's folder to the owner of the tree, if it is empty, as a new one is."""
    if gives_away(top) and os.fstat(folder).st_uid == 0 and not os.listdir(folder):
        give_away(folder, top)


def _made(folder: int, path: bytes, flags: int, mode: int, top: bytes) -> int | None:
    """Return a descriptor of a file that is made now, or None if there is one."""
    new = flags | os.O_CREAT | os.O_EXCL | os.O_CLOEXEC
    try:
        file = os.open(os.path.basename(path), new, mode, dir_fd=folder)
    except FileExistsError:
        return None
    except OSError as cause:
        raise OSError(cause.errno, cause.strerror, path) from cause
    give_away(file, top)
    return file


def _opened(folder: int, path: bytes, flags: int, top: bytes) -> int:
    """Return a descriptor of a file that is there."""
    try:
        file = os.open(
            os.path.basename(path), flags & ~os.O_CREAT | _FILE, dir_fd=folder
        )
    except OSError as cause:
        raise _refusal(path, cause, False) from cause
    try:
        status = os.fstat(file)
        if not S_ISREG(status.st_mode) or status.st_nlink > 1:
            raise _complaint(path, False)
        check_owner(path, status, top)
        os.set_blocking(file, True)
    except BaseException:
        os.close(file)
        raise
    return file


def _refusal(path: bytes, cause: OSError, is_folder: bool) -> Exception:
    """Return what is to be raised if a folder or a file of .redo can't be opened."""
    try:
        status = os.lstat(path)
    except OSError:
        return OSError(cause.errno, cause.strerror, path)
    is_right = S_ISDIR(status.st_mode) if is_folder else S_ISREG(status.st_mode)
    return OSError(cause.errno, cause.strerror, path) if is_right else _complaint(path, is_folder)


def _complaint(path: bytes, is_folder: bool) -> UntrustedError:
    """Return an error that says what is in the place of a folder or of a regular file."""
    status = os.lstat(path)
    if S_ISLNK(status.st_mode):
        what = "is a link"
    elif is_folder:
        what = "is no folder"
    elif S_ISDIR(status.st_mode):
        what = "is a folder"
    elif S_ISREG(status.st_mode):
        return UntrustedError(
            f"{shown(path)} has {status.st_nlink} names: put a copy in its place"
        )
    else:
        what = "is no regular file"
    return UntrustedError(f"{shown(path)} {what}: redo makes no such thing there; remove it")
