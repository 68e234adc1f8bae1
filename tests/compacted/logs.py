"""What a start of redodb-live makes of a log, by dumps.py and reference.py of tests/shared."""
from typing import NamedTuple

from shared.dumps import HEADER, dump_of, left_by
from shared.reference import Reference


class After(NamedTuple):
    """What is known after a start, and what the log has then: all that it had, or a dump."""

    reference: Reference
    whole: bytes
    compacted: bytes


def end_all(reference: Reference) -> bytes:
    """Ends all sessions, from the least number on; returns the lines of that."""
    holders = {cell.holder for cell in reference.cells.values() if cell.holder is not None}
    lines = []
    for session in sorted(holders):
        while (command := reference.closing(session)) is not None:
            lines.append(f"{session} {command} => {reference.answer(session, command)}\n")
    return "".join(lines).encode()


def compacted(reference: Reference) -> bytes:
    """A log that has a dump of what is known, and no line."""
    return HEADER + dump_of(reference)


def after(log: bytes) -> After:
    """What a start makes of a log of whole lines."""
    reference = left_by(log)
    ends = end_all(reference)
    return After(reference, log + ends, compacted(reference))
