"""The dump of a database, written and read by "The log" of docs/RULES.md, from that page alone."""
import hashlib
import re
from typing import Iterator

from shared.reading import DIGEST, is_name, is_stamp, number_of
from shared.recorded import Cell, Kind, Mark, State
from shared.reference import Reference
from shared.talks import HEADER as PLAIN_HEADER

HEADER = b"redodb-log 2\n"
NAMES, COUNTS, SESSIONS, COMMANDS = 16_777_216, 4_294_967_295, 65_535, 4_294_967_165
LETTERS = {Kind.FILE: "f", Kind.DIGEST: "d", Kind.BUILDS: "b", Kind.PENDING: "p", Kind.ABSENT: "a"}
KINDS = {letter: kind for kind, letter in LETTERS.items()}
SIZE = re.compile(r"0|[1-9][0-9]{0,17}")
ROW = re.compile(r"(\+?)([0-9]+)(.*)")


# Writing


def word_of(value: str | int | None) -> str:
    return "-" if value is None else str(value)


def done_word(cell: Cell) -> str:
    if cell.done == cell.file:
        return "="
    return "-" if cell.done is None else f"s{cell.done}"


def is_plain(cell: Cell, grants: int) -> bool:
    """Whether nothing is known of a name but its file and its rows."""
    known = cell.builds, cell.done, cell.digest, grants, cell.holder
    return cell.state is State.IDLE and known == (0, None, None, 0, None)


def cell_words(cell: Cell, grants: int) -> list[str]:
    """The words of a name's line after NAME and FILE."""
    if is_plain(cell, grants):
        return []
    built = [cell.state.value, str(cell.builds), done_word(cell), word_of(cell.digest)]
    return [*built, str(grants), word_of(cell.holder)]


def mark_word(mark: Mark, now: Mark) -> str:
    kind, value = mark
    return "=" if mark == now else LETTERS[kind] + ("" if value is None else str(value))


class Writer:
    """Writes the dump of a database."""

    def __init__(self, reference: Reference) -> None:
        self.reference = reference
        self.numbers = {name: number for number, name in enumerate(reference.named)}

    def row(self, cell: Cell, name: str) -> str:
        """The rows on a name of the target with this cell."""
        created = "+" if name in cell.created else ""
        mark = cell.changes.get(name)
        change = "" if mark is None else mark_word(mark, self.reference.known(name).mark())
        return f"{created}{self.numbers[name]}{change}"

    def lines(self) -> Iterator[str]:
        """The lines after the first."""
        known = self.reference.known
        for name in self.numbers:
            cell, grants = known(name), self.reference.grants[name]
            yield " ".join([name, word_of(cell.file), *cell_words(cell, grants)])
        for name, number in self.numbers.items():
            cell = known(name)
            needed = sorted({*cell.changes, *cell.created}, key=self.numbers.__getitem__)
            if cell.always or needed:
                rows = (self.row(cell, other) for other in needed)
                yield " ".join([str(number), str(int(cell.always)), *rows])


def summed(names: int, body: bytes) -> bytes:
    """A text whose first line is that of a dump with so many names and these other lines."""
    counts = b"state %d %d" % (names, len(body))
    digest = hashlib.sha1(counts + b"\n" + body).hexdigest()
    return b"%b %b\n%b" % (counts, digest.encode(), body)


def dump_of(reference: Reference) -> bytes:
    body = "".join(f"{line}\n" for line in Writer(reference).lines())
    return summed(len(reference.named), body.encode("ascii"))


# Reading


class NoDump(Exception):
    """A text isn't a dump, or no log; what it had to have."""


def wanted(is_right: bool, what: str) -> None:
    if not is_right:
        raise NoDump(what)


def read_number(word: str, most: int, what: str) -> int:
    """The number that a word is."""
    number = number_of(word.encode("latin-1"), most)
    if number is None:
        raise NoDump(what)
    return number


def read_stamp(word: str, what: str) -> str:
    wanted(is_stamp(word.encode("latin-1")), what)
    return word


def read_digest(word: str, what: str) -> str:
    wanted(DIGEST.fullmatch(word.encode("latin-1")) is not None, what)
    return word


def read_done(word: str, file: str | None) -> str | None:
    """What the last `done` gave, if FILE says this."""
    if word == "=":
        return file
    done = None
    if word != "-":
        wanted(word.startswith("s"), "DONE")
        done = read_stamp(word[1:], "DONE")
    wanted(done != file, "DONE")
    return done


def read_holder(word: str) -> int | None:
    """The session that holds a lock, if one does."""
    if word == "-":
        return None
    holder = read_number(word, SESSIONS, "HOLDER")
    wanted(holder > 0, "HOLDER")
    return holder


def read_mark(word: str, now: Mark) -> Mark:
    """The mark of a change row on a name that has that mark now."""
    if word == "=":
        return now
    kind, rest = KINDS.get(word[:1]), word[1:]
    value: str | int | None = None
    match kind:
        case None:
            raise NoDump("the letter of a mark")
        case Kind.FILE:
            value = read_stamp(rest, "the stamp of a mark")
        case Kind.DIGEST:
            value = read_digest(rest, "the digest of a mark")
        case Kind.BUILDS:
            value = read_number(rest, COUNTS, "the count of a mark")
        case _:
            wanted(rest == "", "a mark without a value")
    wanted((kind, value) != now, "another mark")
    return kind, value


class Reader:
    """A database that becomes what the lines of a dump say, one after the other."""

    def __init__(self, count: int) -> None:
        # how many names there are to be, and those that there are
        self.count = count
        self.names: list[str] = []
        self.reference = Reference()
        # the number of the latest target with rows
        self.latest = -1

    def line(self, line: str) -> None:
        words = line.split(" ")
        wanted(len(words) > 1, "a line of two words")
        if len(self.names) < self.count:
            self.name(*words)
        else:
            self.target(*words)

    def name(self, name: str, file: str, *words: str) -> None:
        """Reads the line of a name."""
        wanted(is_name(name.encode("latin-1")), "NAME")
        wanted(name not in self.reference.cells, "another NAME")
        cell = Cell(file=None if file == "-" else read_stamp(file, "FILE"))
        if words:
            wanted(len(words) == 6, "a line of two words or eight")
            grants = self.cell(cell, *words)
            wanted(not is_plain(cell, grants), "a line of two words")
            self.reference.grants[name] = grants
        self.names.append(name)
        self.reference.named[name] = None
        self.reference.cells[name] = cell

    def cell(
        self, cell: Cell, state: str, builds: str, done: str, digest: str, grants: str, holder: str
    ) -> int:
        """Reads what the line of a name says after FILE; returns GRANTS."""
        wanted(state in {one.value for one in State}, "STATE")
        cell.state = State(state)
        cell.builds = read_number(builds, COUNTS, "BUILDS")
        cell.done = read_done(done, cell.file)
        cell.digest = None if digest == "-" else read_digest(digest, "DIGEST")
        cell.holder = read_holder(holder)
        if cell.state is State.BUILDING:
            wanted(cell.holder is not None, "HOLDER")
            cell.builder = cell.holder or 0
        return read_number(grants, COUNTS, "GRANTS")

    def number(self, word: str, latest: int, what: str) -> int:
        """The number of a name, if it comes after the latest one."""
        number = read_number(word, len(self.names) - 1, what)
        wanted(number > latest, f"{what} in order")
        return number

    def target(self, target: str, always: str, *rows: str) -> None:
        """Reads the line of a target. All names have their lines before it."""
        self.latest = self.number(target, self.latest, "TARGET")
        wanted(always == "1" or always == "0" and len(rows) > 0, "ALWAYS")
        cell = self.reference.cells[self.names[self.latest]]
        cell.always = always == "1"
        latest = -1
        for row in rows:
            latest = self.row(cell, latest, row)

    def row(self, cell: Cell, latest: int, row: str) -> int:
        """Reads the rows of a target on one name; returns its number."""
        parts = ROW.fullmatch(row)
        if parts is None:
            raise NoDump("ROW")
        plus, digits, mark = parts.groups()
        number = self.number(digits, latest, "ROW")
        name = self.names[number]
        wanted(plus != "" or mark != "", "a row in ROW")
        if plus:
            cell.created.add(name)
        if mark:
            cell.changes[name] = read_mark(mark, self.reference.known(name).mark())
        return number

    def end(self) -> None:
        """No line follows."""
        wanted(len(self.names) == self.count, "NAMES")
        counts = [cell.builds for cell in self.reference.cells.values()]
        greatest = max([0, *counts, *self.reference.grants.values()])
        wanted(greatest + 2 * self.count <= COMMANDS, "fewer commands")


def read_dump(text: bytes) -> tuple[Reference, bytes]:
    """The database of the dump that a text begins with, and what follows the dump."""
    first, lf, after = text.partition(b"\n")
    words = first.decode("latin-1").split(" ")
    wanted(lf != b"" and len(words) == 4 and words[0] == "state", "the first line")
    names = read_number(words[1], NAMES, "NAMES")
    wanted(SIZE.fullmatch(words[2]) is not None and int(words[2]) <= len(after), "BYTES")
    body, rest = after[: int(words[2])], after[int(words[2]) :]
    wanted(text == summed(names, body) + rest, "SUM")
    wanted(body == b"" or body.endswith(b"\n"), "an LF at the end")
    reader = Reader(names)
    for line in body.decode("latin-1").split("\n")[:-1]:
        reader.line(line)
    reader.end()
    return reader.reference, rest


def load(text: bytes) -> Reference:
    """The database of a dump."""
    reference, rest = read_dump(text)
    wanted(rest == b"", "nothing after the dump")
    return reference


def left_by(log: bytes) -> Reference:
    """What is known after the whole lines of a log. It may begin with a dump."""
    if log.startswith(HEADER):
        reference, lines = read_dump(log.removeprefix(HEADER))
    else:
        header = PLAIN_HEADER.encode()
        wanted(log.startswith(header), "a header")
        reference, lines = Reference(), log.removeprefix(header)
    for line in lines.decode("latin-1").split("\n")[:-1]:
        session, _, command = line.partition(" => ")[0].partition(" ")
        reply = reference.answer(int(session), command)
        wanted(
            line == f"{session} {command} => {reply}", f"the reply {reply} to {session} {command}"
        )
    return reference
