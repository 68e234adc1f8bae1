"""A SQLite file that is used as apenwarr's redo uses one: its tables, its settings, and its way to
ask what is out of date.

Of each file there are a stamp and the runs in which it was checked, changed and failed; of each
dependency, a row."""
import os
from collections.abc import Iterable
from dataclasses import dataclass
from pathlib import Path

from sqlite_rows import COLUMNS, SCHEMA, opened, record

MISSING = "0"
BUILT = 1


@dataclass(frozen=True)
class File:
    """A row of Files."""

    number: int
    name: str
    is_generated: int | None
    checked: int | None
    changed: int | None
    failed: int | None
    stamp: str
    digest: str | None


def stamp_of(path: str) -> str:
    """What a file looks like, by one lstat."""
    try:
        status = os.lstat(path)
    except FileNotFoundError:
        return MISSING
    owner = f"{status.st_uid}-{status.st_gid}"
    return f"{status.st_mtime:.6f}-{status.st_size}-{status.st_ino}-{status.st_mode}-{owner}"


class Database:
    """The file, and the tree that it is about."""

    def __init__(self, file: Path, top: Path) -> None:
        self.top = str(top)
        self.connection = opened(str(file))
        self.connection.executescript(SCHEMA)

    def add_tree(self, rows: dict[str, tuple[list[str], list[str]]]) -> None:
        """Adds targets as built in one run, each with the names of its rows: of both modes."""
        names = {name for changed, created in rows.values() for name in (*changed, *created)} | set(
            rows
        )
        self.connection.executemany(
            "insert into Files values (?, ?, 0, ?, ?, null, ?, '')",
            [(name, name in rows, BUILT, BUILT, stamp_of(f"{self.top}/{name}")) for name in names],
        )
        numbers = dict(self.connection.execute("select name, rowid from Files"))
        self.connection.executemany(
            "insert into Deps values (?, ?, ?, 0)",
            [
                (numbers[target], numbers[name], mode)
                for target, both in rows.items()
                for mode, some in zip("mc", both)
                for name in some
            ],
        )
        self.connection.commit()

    def record(self, target: str, names: list[str]) -> None:
        """Notes dependencies in one transaction."""
        record(self.connection, target, names)

    def out_of_date(self) -> set[str]:
        """The targets that are there and out of date. What was found right is looked at once."""
        right: set[int] = set()
        files = [
            File(*row)
            for row in self.connection.execute(f"select {COLUMNS} from Files order by name")
        ]
        return {
            file.name
            for file in files
            if file.is_generated
            and stamp_of(f"{self.top}/{file.name}") != MISSING
            and self._is_dirty(file, BUILT + 1, right)
        }

    def _is_dirty(self, file: File, most: int, right: set[int]) -> bool:
        if file.failed or file.changed is None or file.changed > most:
            return True
        if file.number in right:
            return False
        if file.stamp != stamp_of(f"{self.top}/{file.name}"):
            return True
        for mode, source in self._sources(file):
            if mode == "c" and os.path.lexists(f"{self.top}/{source.name}"):
                return True
            if mode == "m" and self._is_dirty(source, max(file.changed, file.checked or 0), right):
                return True
        right.add(file.number)
        return False

    def _sources(self, file: File) -> Iterable[tuple[str, File]]:
        rows = self.connection.execute(
            f"select mode, {COLUMNS} from Files join Deps on Files.rowid = source where target = ?",
            [file.number],
        )
        return [(row[0], File(*row[1:])) for row in rows.fetchall()]
