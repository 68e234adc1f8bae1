"""The page that lists what has to be believed: what it should say, and what it says."""
import re
from collections.abc import Iterator
from pathlib import Path

from believed.closure import Files

LAST_PART = "## What sessions had seen"
NO_SENTENCE = "## Files without a sentence"
ROW = re.compile(r"^\| `([^`]+)` \| (\d+) \| (.*?) ?\|$")
TABLE = re.compile(r"^\s*\|(?! File of `crates` \|)(?!-)")
TOTAL = re.compile(r"^\d+ lines in \d+ files\.$", re.M)


def besides(more: Files, found: Files) -> Files:
    """What is in the one and not in the other, file by file."""
    rest: Files = {}
    for path, (count, names) in more.items():
        before, old = found.get(path, (0, []))
        if count > before:
            rest[path] = (count - before, [name for name in names if name not in old])
    return rest


def parts_of(page: str) -> tuple[str, str]:
    """The page up to its last part, and that."""
    first, heading, last = page.partition(LAST_PART)
    return first, heading + last


def total_of(files: Files) -> str:
    """The line that ends a part."""
    return f"{sum(count for count, _ in files.values())} lines in {len(files)} files."


def rows_of(page: str) -> Iterator[tuple[str, int, str]]:
    """The rows of the page's tables: a file, its number of lines, and a sentence."""
    for row in filter(None, map(ROW.match, page.split("\n"))):
        yield row[1], int(row[2]), row[3]


def complaints(files: Files, page: str) -> Iterator[str]:
    """Where a part of the page is out of date."""
    rows = {path: (count, sentence) for path, count, sentence in rows_of(page)}
    listed = [path for path, _, _ in rows_of(page)]
    for path in sorted(files.keys() | rows.keys()):
        if path not in files:
            yield f"{path}: is reached no more"
        elif path not in rows:
            yield f"{path}: {files[path][0]} lines, and the page doesn't have it"
        elif listed.count(path) > 1:
            yield f"{path}: the page has it {listed.count(path)} times"
        elif rows[path][0] != files[path][0]:
            yield f"{path}: {files[path][0]} lines, and the page has {rows[path][0]}"
        elif not rows[path][1]:
            yield f"{path}: has no sentence"
    yield from unread_rows(page)
    if TOTAL.findall(page) != [total_of(files)]:
        yield f"the last line isn't '{total_of(files)}'"


def unread_rows(page: str) -> Iterator[str]:
    """The lines of tables that are no rows."""
    for line in page.split("\n"):
        if TABLE.match(line) and not ROW.match(line):
            yield f"a row can't be read: {line}"


def unnamed_roots(roots: list[tuple[str, str]], page: str) -> Iterator[str]:
    """The roots that the page doesn't name before its first table."""
    head = page.partition("\n|")[0]
    for crate, function in roots:
        if f"`{function}`" not in head or f"`{crate}`" not in head:
            yield f"the page doesn't name {function} of {crate}"


def moved_to(path: str, new: list[str]) -> str | None:
    """The one new file of this name, if there is one."""
    alike = [other for other in new if Path(other).name == Path(path).name]
    return alike[0] if len(alike) == 1 else None


def mended_line(files: Files, line: str, new: list[str]) -> list[str]:
    """A line with the right number. A file that is gone gives its row to the one new file of its
    name, if there is one, which then isn't new."""
    row = ROW.match(line)
    if not row:
        return [line]
    path = row[1] if row[1] in files else moved_to(row[1], new)
    if path is None:
        print(f"gone: {line}")
        return []
    if path != row[1]:
        new.remove(path)
        print(f"moved: {row[1]} to {path}")
    return [f"| `{path}` | {files[path][0]} | {row[3]} |"]


def mended(files: Files, page: str) -> str:
    """A part of the page with the right numbers and files; new ones have no sentence yet."""
    listed = [path for path, _, _ in rows_of(page)]
    new = [path for path in files if path not in listed]
    lines = [mended for line in page.split("\n") for mended in mended_line(files, line, new)]
    page = "\n".join(lines)
    if new:
        table = [NO_SENTENCE, "", "| File of `crates` | Lines | What it says |", "|---|---|---|"]
        table += [f"| `{path}` | {files[path][0]} | |" for path in new]
        page = TOTAL.sub(lambda _: "\n".join(table) + "\n\n" + total_of(files), page)
    return TOTAL.sub(total_of(files), page)
