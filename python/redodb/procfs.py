"""What the kernel says of processes, in /proc."""
import os

UNKNOWN = b"-"


def leader(group: int) -> tuple[bytes, bytes]:
    """Return what tells the leader of a group from others: when it began, and its PID namespace."""
    namespace = own_namespace()
    return (_began(group) if namespace != UNKNOWN else UNKNOWN), namespace


def own_namespace() -> bytes:
    """Return the number of this process's PID namespace, or UNKNOWN if /proc is of another."""
    try:
        if os.readlink("/proc/self") != str(os.getpid()):
            return UNKNOWN
        return os.readlink("/proc/self/ns/pid").removeprefix("pid:[")[:-1].encode()
    except OSError:
        return UNKNOWN


def _began(number: int) -> bytes:
    """Return when a process began, in ticks of the machine, or UNKNOWN if it isn't there."""
    try:
        with open(f"/proc/{number}/stat", "rb") as file:
            text = file.read()
        return b"%d" % int(text[text.rindex(b")") + 2 :].split()[19])
    except (OSError, ValueError, IndexError):
        return UNKNOWN
