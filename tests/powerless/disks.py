"""What a power loss leaves on a disk of the files that a program wrote, by what it synced.

Bytes and lengths of a file are on the disk once the file is synced, whatever it is called. That a
name was given, moved or removed is on the disk once its folder is synced; a file system does each
of these wholly or not at all. Of all else any part may be lost."""
from __future__ import annotations

import itertools
import random
from collections.abc import Iterable, Iterator, Mapping
from dataclasses import dataclass, field, replace
from pathlib import Path
from typing import NamedTuple

# of so many changes, or fewer, all subsets are tried
MOST_SUBSETS = 6
# what the system puts behind the name that a file had, if it has none any more
DELETED = " (deleted)"


class Event(NamedTuple):
    """What a program did with a file: `create`, `write`, `cut`, `sync`, `unlink`, or `rename`,
    whose data are the new name; or `out`."""

    kind: str
    name: str
    place: int = 0
    data: bytes = b""


class Naming(NamedTuple):
    """A file gets its first name, another one, or none. A file that had the new name has none
    then."""

    old: str | None
    new: str | None

    def is_in(self, folder: str) -> bool:
        return Path(self.new or self.old or "").parent == Path(folder)

    def do(self, names: dict[str, int], file: int) -> None:
        if self.old is not None and names.get(self.old) == file:
            del names[self.old]
        if self.new is not None:
            names[self.new] = file


class Grow(NamedTuple):
    """A file gets this length, if it is shorter; the new bytes are zeros."""

    length: int

    def do(self, text: bytearray) -> None:
        text.extend(bytes(max(self.length - len(text), 0)))


class Cut(NamedTuple):
    """A file gets this length."""

    length: int

    def do(self, text: bytearray) -> None:
        del text[self.length:]
        Grow(self.length).do(text)


class Write(NamedTuple):
    """Bytes are put at a place of a file; there are zeros before it if nothing else is."""

    place: int
    data: bytes

    def do(self, text: bytearray) -> None:
        Grow(self.place if self.data else 0).do(text)
        text[self.place:self.place + len(self.data)] = self.data


Change = Naming | Grow | Cut | Write


class Step(NamedTuple):
    """A change of the file with this number, or of its name."""

    file: int
    change: Change


def is_in(step: Step, folder: str) -> bool:
    """Whether this is on the disk once the folder is synced."""
    return isinstance(step.change, Naming) and step.change.is_in(folder)


@dataclass(frozen=True)
class Disk:
    """What is on the disk of each file, the names that files have there, and the changes of which
    it isn't known, in their order. Files are counted from 0."""

    kept: tuple[bytes, ...]
    named: Mapping[str, int]
    pending: tuple[Step, ...] = ()
    # the names by which the system calls files that have lost theirs
    deleted: Mapping[str, int] = field(default_factory=dict)

    def names(self, steps: Iterable[Step]) -> dict[str, int]:
        """The files that have names, if of the changes these are kept."""
        names = dict(self.named)
        for file, change in steps:
            if isinstance(change, Naming):
                change.do(names, file)
        return names

    def left(self, steps: Iterable[Step]) -> dict[str, bytes]:
        """The files, if of the changes these are kept. A file that none changes is what was kept."""
        steps = list(steps)
        texts: dict[int, bytearray] = {}
        for file, change in steps:
            if isinstance(change, Naming):
                continue
            if file not in texts:
                texts[file] = bytearray(self.kept[file])
            change.do(texts[file])
        return {name: bytes(texts[file]) if file in texts else self.kept[file]
                for name, file in self.names(steps).items()}

    def now(self) -> dict[str, bytes]:
        """The files as all programs see them."""
        return self.left(self.pending)

    def file(self, name: str) -> int | None:
        """The file that the system calls so."""
        return {**self.deleted, **self.names(self.pending)}.get(name)

    def after(self, event: Event) -> Disk:
        """The disk after one more event."""
        file = self.file(event.name)
        match event.kind:
            case "out":
                return self
            case "create":
                made = replace(self, kept=(*self.kept, b""))
                return made.plus(len(self.kept), Naming(None, event.name))
            case "sync" if file is None:
                return self.synced_folder(event.name)
        if file is None:
            raise ValueError(f"no such file: {event}")
        match event.kind:
            case "write":
                return self.plus(file, Write(event.place, event.data))
            case "cut":
                return self.plus(file, Cut(event.place))
            case "sync":
                return self.synced(file)
            case "rename":
                name = event.data.decode()
                return self.without(name).plus(file, Naming(event.name, name))
            case "unlink":
                return self.without(event.name).plus(file, Naming(event.name, None))
        raise ValueError(f"no such kind: {event}")

    def plus(self, file: int, change: Change) -> Disk:
        return replace(self, pending=(*self.pending, Step(file, change)))

    def without(self, name: str) -> Disk:
        """The disk once the file of this name, if there is one, is called otherwise."""
        file = self.file(name)
        if file is None:
            return self
        return replace(self, deleted={**self.deleted, name + DELETED: file})

    def synced(self, file: int) -> Disk:
        """The disk after a sync of this file, which leaves its name in the folder as it is."""
        text = bytearray(self.kept[file])
        rest = []
        for step in self.pending:
            if step.file != file or isinstance(step.change, Naming):
                rest.append(step)
            else:
                step.change.do(text)
        kept = (*self.kept[:file], bytes(text), *self.kept[file + 1:])
        return replace(self, kept=kept, pending=tuple(rest))

    def synced_folder(self, folder: str) -> Disk:
        """The disk after a sync of this folder, which leaves the bytes of its files as they are."""
        named = self.names(step for step in self.pending if is_in(step, folder))
        rest = tuple(step for step in self.pending if not is_in(step, folder))
        return replace(self, named=named, pending=rest)


def disk_of(files: Mapping[str, bytes]) -> Disk:
    """A disk that has these files for sure."""
    return Disk(tuple(files.values()), {name: file for file, name in enumerate(files)})


def torn(step: Step, choose: random.Random) -> list[list[Step]]:
    """A write of which a part is lost: its end; its end, but the length is kept; or something
    within it, which reads as zeros. No other change can be torn."""
    file, change = step
    if not isinstance(change, Write):
        return []
    first, second = sorted(choose.randint(0, len(change.data)) for _ in range(2))
    begin = Step(file, Write(change.place, change.data[:first]))
    end = Step(file, Write(change.place + second, change.data[second:]))
    length = Step(file, Grow(change.place + len(change.data)))
    return [[begin], [begin, length], [length, begin, end]]


def in_order(disk: Disk, choose: random.Random, most: int) -> Iterator[list[Step]]:
    """What is kept if the disk does one change after another: the first ones, and the beginning of
    a write. So many of these."""
    steps = list(disk.pending)
    lengths = range(len(steps) + 1)
    for length in choose.sample(lengths, min(most, len(lengths))):
        kept = steps[:length]
        yield kept
        for step in steps[length:length + 1]:
            yield from (kept + begin for begin in torn(step, choose)[:1])


def subsets(disk: Disk, choose: random.Random, most: int) -> Iterator[list[Step]]:
    """All subsets of the changes; of more than a few changes, so many by chance."""
    steps = list(disk.pending)
    count = len(steps)
    if count <= MOST_SUBSETS:
        chosen: Iterable[Iterable[bool]] = itertools.product((False, True), repeat=count)
    else:
        shares = (choose.random() for _ in range(most))
        chosen = ([choose.random() < share for _ in steps] for share in shares)
    for bits in chosen:
        yield list(itertools.compress(steps, bits))


def in_any_order(disk: Disk, choose: random.Random, most: int) -> Iterator[list[Step]]:
    """What is kept if the disk does the changes in any order: each subset, and the same with one
    write torn."""
    for kept in subsets(disk, choose, most):
        yield kept
        at = choose.randrange(len(kept)) if kept else 0
        parts = [parts for step in kept[at:at + 1] for parts in torn(step, choose)]
        for one in choose.sample(parts, min(1, len(parts))):
            yield kept[:at] + one + kept[at + 1:]
