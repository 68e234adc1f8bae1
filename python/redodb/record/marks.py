"""The mark of a tree whose log is whole, which a server of redo leaves at its end."""
import os

from .. import private
from ..places import Places


def mark_whole(places: Places) -> None:
    """Have the log on the disk, and then `.redo/clean`, which has its length.

    Without that mark, a server can't tell whether the end of the log was lost, as after a failure
    of power. Raises OSError and UntrustedError.
    """
    length = _synced(places.log)
    clean = places.home + b"/clean"
    new = private.open_file(clean + b".new", os.O_WRONLY | os.O_CREAT)
    try:
        os.ftruncate(new, 0)
        os.write(new, b"%d\n" % length)
        os.fsync(new)
    finally:
        os.close(new)
    os.rename(clean + b".new", clean)
    home = private.open_folder(places.home)
    try:
        os.fsync(home)
    finally:
        os.close(home)


def _synced(path: bytes) -> int:
    """Have a file on the disk, and return its length."""
    file = private.open_file(path, os.O_RDONLY)
    try:
        os.fsync(file)
        return os.fstat(file).st_size
    finally:
        os.close(file)
