"""Dumps that were worked out by hand from "The log" of docs/RULES.md, the sums by sha1sum. The
first four are those of crates/redodb_dump/specs/Worked.antt."""
from typing import Iterable

from shared.recorded import Cell, Kind, State
from shared.reference import Reference
from shared.talks import TOP

EMPTY_DIGEST = "da39a3ee5e6b4b0d3255bfef95601890afd80709"
OTHER_DIGEST = "2da9993e364706816aba3e25717850c26c9cd0d8"
ABC_DIGEST = "a9993e364706816aba3e25717850c26c9cd0d89d"


def knowing(cells: dict[str, Cell], grants: dict[str, int]) -> Reference:
    """A database that knows this."""
    reference = Reference()
    reference.cells = cells
    reference.named = dict.fromkeys(cells)
    reference.grants.update(grants)
    return reference


def after(commands: Iterable[str]) -> Reference:
    """What is known after these commands of session 1."""
    reference = Reference()
    for command in commands:
        reference.answer(1, command)
    return reference


def told(lines: str) -> Reference:
    """What is known after these commands, each with its session."""
    reference = Reference()
    for line in lines.splitlines():
        session, _, command = line.partition(" ")
        reference.answer(int(session), command)
    return reference


def with_rows() -> Reference:
    """A target with rows: with a mark of each kind that isn't the name's of now, with one that is,
    and without any."""
    target = Cell("5", State.BUILT, builds=1, done="5", always=True, created={"y", "n"})
    target.changes = {
        "n": (Kind.FILE, "50"),
        "a": (Kind.ABSENT, None),
        "p": (Kind.PENDING, None),
        "b": (Kind.BUILDS, 1),
        "d": (Kind.DIGEST, ABC_DIGEST),
        "c": (Kind.FILE, "9"),
    }
    cells = {
        "T": target,
        "c": Cell("10"),
        "d": Cell("20", State.BUILT, builds=2, done="19", digest=EMPTY_DIGEST, holder=2),
        "b": Cell(None, State.FAILED, builds=3),
        "p": Cell("30"),
        "a": Cell("40"),
        "n": Cell("50"),
        "y": Cell(),
    }
    return knowing(cells, {"T": 1, "d": 2, "b": 3})


WITH_ROWS = b"""\
state 8 195 71aed130e87cff343c60046bc7b6cc9e80c5d16a
T 5 built 1 = - 1 -
c 10
d 20 built 2 s19 da39a3ee5e6b4b0d3255bfef95601890afd80709 2 2
b - failed 3 = - 3 -
p 30
a 40
n 50
y -
0 1 1f9 2da9993e364706816aba3e25717850c26c9cd0d89d 3b1 4p 5a +6= +7
"""


# nothing is known of these names but their files
SOURCES = """\
1 file a.c 10
1 file a.h 11
1 gone a.h
"""
DUMP_OF_SOURCES = b"""\
state 2 13 1230291b14c72c83b4620087bd52a91be5678c27
a.c 10
a.h -
"""

# a target with rows on names that have each mark no longer, on one that still has it, on one
# without a file, and on one that had none
MARKS = """\
1 file s 1
1 file k 1
1 lock d
1 start d
1 stamp d 61
1 done d 5
1 lock b
1 start b
1 done b -
2 lock p
2 start p
1 lock t
1 start t
1 ifchange t s k d b p n
1 ifcreate t m n
1 always t
1 done t 9
1 unlock t
1 file s 2
1 start d
1 stamp d 62
1 done d 6
1 unlock d
1 start b
1 done b 7
1 file b 8
2 done p 3
2 unlock p
1 file n 4
"""
DUMP_OF_MARKS = b"""\
state 8 204 5c9368f91ce97e3d24c76e97e51b131c1265760a
s 2
k 1
d 6 built 2 = e9d71f5ee7c92d6dc9e92ffdad17b8bd49418f98 1 -
b 8 built 2 s7 - 1 1
p 3 built 1 = - 1 -
t 9 built 1 = - 1 -
n 4
m -
5 1 0f1 1= 2d86f7e437faa5a7fce15d1ddcb9eaeaea377667b8 3b1 4p +6a +7
"""

# a target that is being built, and has rows on names with the marks that they have now
BUILDING = """\
1 file s 1
1 lock f
1 start f
1 failed f
1 lock g
2 lock u
2 unlock u
3 lock t
3 start t
3 ifchange t s f g
3 stamp t 61
"""
DUMP_OF_BUILDING = b"""\
state 5 138 0c5288028af5d328b774f93887ed7f56f7409c62
s 1
f - failed 0 = - 1 1
g - idle 0 = - 1 1
u - idle 0 = - 1 -
t - building 0 = 86f7e437faa5a7fce15d1ddcb9eaeaea377667b8 1 3
4 0 0= 1= 2=
"""

# targets whose files are no longer those of the last done; one has an always row alone
DONE = """\
1 lock x
1 start x
1 done x 5
1 gone x
1 lock y
1 start y
1 always y
1 done y -
1 file y 5
"""
DUMP_OF_DONE = b"""\
state 2 45 e2121b06f442443a92ad1a82e655d0809bf04994
x - built 1 s5 - 1 1
y 5 built 1 - - 1 1
1 1
"""


def example() -> bytes:
    """The dump in the example of docs/RULES.md."""
    page = (TOP / "docs/RULES.md").read_text()
    lines = (
        page.partition("a compacted log is\n\n")[2].partition("\n\n")[0].splitlines(keepends=True)
    )
    return "".join(line.removeprefix("    ") for line in [*lines[1:], "\n"]).encode()


EXAMPLE = "file a.c 10", "lock a.o", "start a.o", "ifchange a.o a.c x.h", "ifcreate a.o y.h"

# databases, and their dumps
DUMPS = {
    "nothing": (Reference(), b"state 0 0 49d53525733ab592fe7182d48f3e73401a9763ca\n"),
    "a source": (
        after(["file a.c 10"]),
        b"state 1 7 5e1008b3e327008c809c188e0f64cbc1c1b806d7\na.c 10\n",
    ),
    "a target that is being built": (
        after(["file T 5", "lock T", "start T"]),
        b"state 1 23 1f62858ce7a1fd4ca83d7a556b5ed023f0a217ca\nT 5 building 0 - - 1 1\n",
    ),
    "rows with each mark": (with_rows(), WITH_ROWS),
    "names without rows": (told(SOURCES), DUMP_OF_SOURCES),
    "marks of before": (told(MARKS), DUMP_OF_MARKS),
    "marks of now": (told(BUILDING), DUMP_OF_BUILDING),
    "other files than those of done": (told(DONE), DUMP_OF_DONE),
    "the example of RULES": (after([*EXAMPLE, "done a.o 20", "file a.c 11"]), example()),
}

# how many names there are to be, and lines that are none of a dump, with what they had to be
OTHERS = [
    (0, "a 1\n", "TARGET"),
    (1, "", "NAMES"),
    (2, "a 1\n", "NAMES"),
    (1, "a 1\nb 2\n", "TARGET"),
    (1, "a 1", "an LF at the end"),
    (1, "\na 1\n", "a line of two words"),
    (1, "a\n", "a line of two words"),
    (1, "a 1 \n", "a line of two words or eight"),
    (1, "a  1\n", "FILE"),
    (1, " a 1\n", "NAME"),
    (1, "a =>\n", "FILE"),
    (1, "=> 1\n", "NAME"),
    (1, "#a 1\n", "NAME"),
    (1, "a\xff 1\n", "NAME"),
    (1, f"a {'1' * 65}\n", "FILE"),
    (1, f"{'a' * 256} 1\n", "NAME"),
    (2, "a 1\na 2\n", "another NAME"),
    # all is said of a name of which only the file is known, or not all of another
    (1, "a 1 idle 0 - - 0 -\n", "a line of two words"),
    (1, "a - idle 0 = - 0 -\n", "a line of two words"),
    (1, "a 1 idle\n", "a line of two words or eight"),
    (1, "a 1 built 1 = - 1\n", "a line of two words or eight"),
    (1, "a 1 built 1 = - 1 - -\n", "a line of two words or eight"),
    # words with another spelling
    (1, "a 1 Built 1 = - 1 -\n", "STATE"),
    (1, "a 1 done 1 = - 1 -\n", "STATE"),
    (1, "a 1 built 01 = - 1 -\n", "BUILDS"),
    (1, "a 1 built -1 = - 1 -\n", "BUILDS"),
    (1, "a 1 built  = - 1 -\n", "BUILDS"),
    (1, "a 1 built 4294967296 = - 1 -\n", "BUILDS"),
    (1, "a 1 built 1 = - 4294967296 -\n", "GRANTS"),
    (1, "a 1 built 1 = - +1 -\n", "GRANTS"),
    (1, "a 1 built 1 s1 - 1 -\n", "DONE"),
    (1, "a 1 built 1 s - 1 -\n", "DONE"),
    (1, "a 1 built 1 s- - 1 -\n", "DONE"),
    (1, "a 1 built 1 -1 - 1 -\n", "DONE"),
    (1, "a 1 built 1 2 - 1 -\n", "DONE"),
    (1, "a 1 built 1  - 1 -\n", "DONE"),
    (1, "a - built 1 - - 1 -\n", "DONE"),
    (1, f"a 1 built 1 = {ABC_DIGEST.upper()} 1 -\n", "DIGEST"),
    (1, f"a 1 built 1 = {ABC_DIGEST[:-2]} 1 -\n", "DIGEST"),
    (1, f"a 1 built 1 = {ABC_DIGEST}00 1 -\n", "DIGEST"),
    (1, "a 1 built 1 = - 1 0\n", "HOLDER"),
    (1, "a 1 built 1 = - 1 01\n", "HOLDER"),
    (1, "a 1 built 1 = - 1 65536\n", "HOLDER"),
    (1, "a 1 building 1 = - 1 -\n", "HOLDER"),
    # rows
    (1, "a 1\n0 0\n", "ALWAYS"),
    (1, "a 1\n0 2\n", "ALWAYS"),
    (1, "a 1\n0 01\n", "ALWAYS"),
    (1, "a 1\n0\n", "a line of two words"),
    (1, "a 1\n0 1 \n", "ROW"),
    (1, "a 1\n0 1  0=\n", "ROW"),
    (1, "a 1\n1 1\n", "TARGET"),
    (1, "a 1\n00 1\n", "TARGET"),
    (1, "a 1\n4294967296 1\n", "TARGET"),
    (1, "a 1\n0 1\n0 1\n", "TARGET in order"),
    (2, "a 1\nb 1\n1 1\n0 1\n", "TARGET in order"),
    (1, "a 1\n0 0 0\n", "a row in ROW"),
    (1, "a 1\n0 0 +\n", "ROW"),
    (1, "a 1\n0 0 =\n", "ROW"),
    (1, "a 1\n0 0 ++0\n", "ROW"),
    (1, "a 1\n0 0 1=\n", "ROW"),
    (1, "a 1\n0 0 00=\n", "ROW"),
    (2, "a 1\nb 1\n0 0 1= 0=\n", "ROW in order"),
    (2, "a 1\nb 1\n0 0 0= 0a\n", "ROW in order"),
    (2, "a 1\nb 1\n0 0 0= +0\n", "ROW in order"),
    (1, "a 1\n0 0 0==\n", "the letter of a mark"),
    (1, "a 1\n0 0 0=+\n", "the letter of a mark"),
    (1, "a 1\n0 0 0x\n", "the letter of a mark"),
    (1, "a 1\n0 0 0F2\n", "the letter of a mark"),
    (1, "a 1\n0 0 0f\n", "the stamp of a mark"),
    (1, "a 1\n0 0 0f-\n", "the stamp of a mark"),
    (1, "a 1\n0 0 0d86\n", "the digest of a mark"),
    (1, f"a 1\n0 0 0d{ABC_DIGEST.upper()}\n", "the digest of a mark"),
    (1, "a 1\n0 0 0b\n", "the count of a mark"),
    (1, "a 1\n0 0 0b01\n", "the count of a mark"),
    (1, "a 1\n0 0 0b4294967296\n", "the count of a mark"),
    (1, "a 1\n0 0 0px\n", "a mark without a value"),
    (1, "a 1\n0 0 0a1\n", "a mark without a value"),
    # the mark that the name has now
    (1, "a 1\n0 0 0f1\n", "another mark"),
    (1, "a -\n0 0 0a\n", "another mark"),
    (1, "a 1 failed 1 = - 1 -\n0 0 0p\n", "another mark"),
    (1, "a 1 building 1 = - 1 1\n0 0 0p\n", "another mark"),
    (1, "a 1 built 7 = - 1 -\n0 0 0b7\n", "another mark"),
    (1, f"a 1 built 7 = {ABC_DIGEST} 1 -\n0 0 0d{ABC_DIGEST}\n", "another mark"),
    # the greatest count leaves no command
    (1, "a - built 4294967164 = - 1 -\n", "fewer commands"),
    (1, "a - built 1 = - 4294967164 -\n", "fewer commands"),
    (2, "a - built 4294967162 = - 1 -\nb 1\n", "fewer commands"),
]

# texts whose first line isn't that of a dump, and what it had to be
OTHER_TEXTS = {
    b"": "the first line",
    b"\n": "the first line",
    b"redodb-log 2\n" + WITH_ROWS: "the first line",
    b"state 0 0 49d53525733ab592fe7182d48f3e73401a9763ca": "the first line",
    b"State 0 0 49d53525733ab592fe7182d48f3e73401a9763ca\n": "the first line",
    b"state 0 0 49d53525733ab592fe7182d48f3e73401a9763ca \n": "the first line",
    b"state 0 0 49d53525733ab592fe7182d48f3e73401a9763cb\n": "SUM",
    b"state 0 0 49D53525733AB592FE7182D48F3E73401A9763CA\n": "SUM",
    b"state 0 00 49d53525733ab592fe7182d48f3e73401a9763ca\n": "BYTES",
    b"state 0 1 49d53525733ab592fe7182d48f3e73401a9763ca\n": "BYTES",
    b"state 00 0 49d53525733ab592fe7182d48f3e73401a9763ca\n": "NAMES",
    b"state 16777217 0 49d53525733ab592fe7182d48f3e73401a9763ca\n": "NAMES",
    # the sum of the lines alone, and of all but the LF
    b"state 1 7 680fc3102ec6bbbe3f9ff3f4b1eca8cf25736d55\na.c 10\n": "SUM",
    b"state 0 0 da39a3ee5e6b4b0d3255bfef95601890afd80709\n": "SUM",
    WITH_ROWS + b"1 file c 11 => ok\n": "nothing after the dump",
}

# dumps of states that few commands lead to, or none
TOLD = [
    (1, "a 1 idle 0 = - 0 -\n"),
    (1, "a - idle 0 s1 - 0 -\n"),
    (1, f"a - idle 0 = {OTHER_DIGEST} 0 -\n"),
    (1, "a - idle 0 = - 0 3\n"),
    (1, "a - idle 0 = - 3 -\n"),
    (1, "a - idle 5 = - 0 -\n"),
    (1, "a 1\n0 1 +0=\n"),
    (1, "a 1\n0 0 +0\n"),
    (1, "a 1\n0 0 0b0\n"),
    (1, "a 1\n0 0 0fa\n"),
    (1, "a 1\n0 0 0b1\n"),
    (1, "a 1 built 1 = - 1 -\n0 0 0f1\n"),
    (1, "a 1 building 7 - - 2 65535\n"),
    (1, "a - built 4294967163 = - 1 -\n"),
    (1, f"{'a' * 255} {'1' * 64}\n"),
    (2, f"a 1\nb -\n0 0 0d{OTHER_DIGEST} +1p\n1 1\n"),
    (1, "a - built 1 = - 4294967163 -\n"),
    (2, "a 1\nb -\n0 1 0a\n1 0 0=\n"),
]
