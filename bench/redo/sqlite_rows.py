#!/usr/bin/python3 -IS
"""How apenwarr's redo opens its SQLite file, and notes a dependency there.

Called as a program it is what a redo-ifchange does with the file in a process of its own, and
nothing else: it opens it, notes the dependencies in one transaction, and ends.

Usage: sqlite_rows.py FILE TARGET NAME.."""
import posix
import sys

from _sqlite3 import Connection, connect  # the module sqlite3 takes longer to start

SCHEMA = """
create table Schema (version int);
insert into Schema values (1);
create table Files (name not null primary key, is_generated int, is_override int,
                    checked_runid int, changed_runid int, failed_runid int, stamp, csum);
create table Deps (target int, source int, mode not null, delete_me int,
                   primary key (target, source));
create index Deps_source on Deps (source);
"""
COLUMNS = "Files.rowid, name, is_generated, checked_runid, changed_runid, failed_runid, stamp, csum"


def opened(file: str) -> Connection:
    """Opens the file, with its settings."""
    connection = connect(file, timeout=60)
    connection.execute("pragma synchronous = off")
    connection.execute("pragma journal_mode = WAL")
    return connection


def record(connection: Connection, target: str, names: list[str]) -> None:
    """Notes dependencies, in one transaction."""
    number = _number(connection, target)
    for name in names:
        connection.execute(
            "insert or replace into Deps (target, source, mode, delete_me) values (?, ?, 'm', 0)",
            [number, _number(connection, name)],
        )
    connection.commit()


def _number(connection: Connection, name: str) -> int:
    found = connection.execute(f"select {COLUMNS} from Files where name = ?", [name]).fetchone()
    if found is None:
        connection.execute("insert into Files (name) values (?)", [name])
        return _number(connection, name)
    number: int = found[0]
    return number


def main(file: str, target: str, names: list[str]) -> None:
    connection = opened(file)
    if connection.execute("select version from Schema").fetchone() != (1,):
        raise SystemExit(f"{file}: another schema")
    record(connection, target, names)
    connection.close()
    posix._exit(0)  # as redo-ifchange ends


if __name__ == "__main__":
    main(sys.argv[1], sys.argv[2], sys.argv[3:])
