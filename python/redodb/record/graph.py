"""What a build tool knows of its targets, in the tool's own paths."""

from dataclasses import dataclass, field
from enum import Enum


class RecordError(Exception):
    """A tree can't be recorded; the text is the cause, in one line."""


class Standing(Enum):
    """How the tool treats a target, whatever the times of the files say."""

    BUILT = "built"
    """It was built: it is out of date if an input is newer."""
    UNBUILT = "unbuilt"
    """It wasn't built, or the tool no longer knows what it read: the tool builds it next time."""
    ALWAYS = "always"
    """The tool builds it every time."""


@dataclass
class Target:
    """A target with the paths that it was built from.

    A target that is no file has no time of its own: it is as new as its newest input.
    """

    inputs: list[bytes] = field(default_factory=list)
    standing: Standing = Standing.BUILT
    checked: int | None = None
    """When the tool last found it right without writing it, in nanoseconds, if that is known."""
    together: tuple[bytes, ...] = ()
    """All outputs of the same build, if there are several: they are out of date together."""
    digest: bytes | None = None
    """What the tool is to know of its content, whatever is in its file."""
    aside: list[bytes] = field(default_factory=list)
    """Inputs whose times tell nothing: the build is taken for one from what they are now."""


Graph = dict[bytes, Target]
