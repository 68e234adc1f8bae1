"""Writing `.do` files: each is known by its first line, and what anybody else wrote stays."""

import hashlib
import os
import stat
import tempfile

from .graph import RecordError

_HEAD = b"# redodb record wrote this, and writes it again unless it is edited: "
_MOST_BYTES = 16 * 1024 * 1024


def headed(text: bytes) -> bytes:
    """Return a text below the line that says who wrote it, with a digest of the text."""
    return _HEAD + hashlib.sha256(text).hexdigest().encode() + b"\n" + text


def is_ours(text: bytes) -> bool:
    """Say whether this is a text that `headed` returned."""
    return headed(text.partition(b"\n")[2]) == text


def write_all(top: bytes, texts: dict[bytes, bytes]) -> None:
    """Write files below a folder, by their paths relative to it; the folders that they are in too.

    Raises RecordError, before anything is written, if a file is there that isn't known.
    """
    changed = {name: headed(text) for name, text in texts.items()}
    for name in list(changed):
        if _former(top, name) == changed[name]:
            del changed[name]
    for name, text in changed.items():
        _write(os.path.join(top, name), text)


def is_free(top: bytes, name: bytes) -> bool:
    """Say whether a file of this name can be written."""
    try:
        _former(top, name)
    except RecordError:
        return False
    return True


def _former(top: bytes, name: bytes) -> bytes | None:
    """Return the text of a file that is known; None if there is none."""
    shown = os.fsdecode(name)
    try:
        with open(os.path.join(top, name), "rb", opener=_opener) as file:
            if not stat.S_ISREG(os.fstat(file.fileno()).st_mode):
                raise RecordError(f"{shown} is there, and no regular file: it stays")
            text = file.read(_MOST_BYTES)
    except FileNotFoundError:
        return None
    except OSError as error:
        raise RecordError(f"{shown} is there, and can't be read: {error.strerror}") from error
    if not is_ours(text):
        raise RecordError(f"{shown} is there, and redodb record didn't write it, or it was edited")
    return text


def _opener(path: str, flags: int) -> int:
    """Open a file, but no link, and without waiting for a FIFO."""
    return os.open(path, flags | os.O_NOFOLLOW | os.O_NONBLOCK | os.O_CLOEXEC)


def _write(path: bytes, text: bytes) -> None:
    """Write a file under another name, and rename it."""
    folder, name = os.path.split(path)
    os.makedirs(folder, exist_ok=True)
    descriptor, new = tempfile.mkstemp(prefix=b".redodb-record-", dir=folder)
    try:
        with os.fdopen(descriptor, "wb") as file:
            file.write(text)
            os.fchmod(file.fileno(), 0o666 & ~_umask())
        os.rename(new, os.path.join(folder, name))
    except BaseException:
        os.unlink(new)
        raise


def _umask() -> int:
    """Return the umask of this process."""
    umask = os.umask(0o077)
    os.umask(umask)
    return umask
