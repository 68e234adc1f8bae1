"""The stamp of a file: what the database compares to see whether a file changed.

A stamp says what is in a file, so a copy has the stamp of its original, and no time counts.
"""
import os
from hashlib import blake2b
from stat import S_IFMT, S_ISDIR, S_ISLNK, S_ISREG

FOLDER = "folder"

_EXECUTION = 0o111
_TAG = "b2-"
_DIGEST_BYTES = 28
_BLOCK = 1 << 18


def stamp_of(path: bytes) -> str | None:
    """Return the stamp of a file, or None if no file can be seen there.

    That of a plain file is `b2-` and the BLAKE2b digest of the line `file BITS`, NUL and its bytes;
    BITS are the bits of execution of its mode, in octal. That of a folder is `folder`, whatever is
    in it. That of a symbolic link is a digest of its text and of the stamp of what it leads to. A
    file that can't be read has a digest of its size, time and inode.
    """
    try:
        status = os.lstat(path)
    except (OSError, ValueError):
        return None
    if S_ISLNK(status.st_mode):
        return _stamp_of_link(path)
    return _stamp_of_file(path, status, os.O_NOFOLLOW)


def _stamp_of_link(path: bytes) -> str | None:
    try:
        text = os.readlink(path)
    except OSError:
        return None
    try:
        end = _stamp_of_file(path, os.stat(path), 0)
    except OSError:
        end = None  # it leads nowhere that can be seen
    return _digest(b"link\0" + text + b"\0" + (end or "").encode())


def _stamp_of_file(path: bytes, status: os.stat_result, flags: int) -> str | None:
    """Return the stamp of what has this status, and is no link."""
    if S_ISDIR(status.st_mode):
        return FOLDER
    if not S_ISREG(status.st_mode):
        return _digest(b"other %o %d\0" % (S_IFMT(status.st_mode), status.st_rdev))
    try:
        file = os.open(path, os.O_RDONLY | os.O_NONBLOCK | os.O_CLOEXEC | os.O_NOCTTY | flags)
    except FileNotFoundError:
        return None
    except OSError:
        return _unread(status)
    try:
        return _read(file)
    except OSError:
        return _unread(status)
    finally:
        os.close(file)


def _read(file: int) -> str:
    """Return the stamp of an open plain file.

    Of one that grows meanwhile little more is read, for there may be no end of it.
    """
    before = os.fstat(file)
    told = b"file %o\0" % (before.st_mode & _EXECUTION)
    content = blake2b(told, digest_size=_DIGEST_BYTES)
    rest = before.st_size + _BLOCK
    while rest > 0 and (block := os.read(file, _BLOCK)):
        content.update(block)
        rest -= len(block)
    return _TAG + content.hexdigest()


def _unread(status: os.stat_result) -> str:
    told = (status.st_size, status.st_mtime_ns, status.st_ctime_ns, status.st_ino)
    return _digest(b"unread %d %d %d %d\0" % told)


def _digest(told: bytes) -> str:
    return _TAG + blake2b(told, digest_size=_DIGEST_BYTES).hexdigest()
