"""Session files and histories without a fault, to be damaged."""
from running import run_text

COMMON = """file a.c 10; lock a.o; start a.o; ifchange a.o a.c; done a.o 20; unlock a.o; ood;
targets; sources;"""
# its last line has no LF
OBJECTS = """# Two objects and a program.; ; file main.c 1; file util.h 1; lock main.o;
start main.o; ifchange main.o main.c util.h; ifcreate main.o config.h; stamp main.o 6d61696e;
done main.o 10; unlock main.o; lock app; start app; ifchange app main.o; done app 10; ood;
file util.h 2; ood; lock main.o; start main.o; stamp main.o 6d61696e; done main.o 11; ood;
file config.h 1; ood; sources; targets"""
REFUSED = """lock main.o; start main.o; unlock main.o; stamp main.o 6D61696E; done main.o 7;
unlock main.o; lock app; lock app; start app; failed app; targets; done app 8; start app;
done app -; unlock app; gone main.o; targets; start app;"""
APPEARS = "lock T; start T; ifcreate T y; done T 5; ood; file y 1; ood; gone y; ood;"
ALWAYS = """lock t; start t; always t; ifchange t a b; stamp t -; failed t; ood; start t;
done t -;"""
RING = """file T 1; sources; lock a; lock b; start a; start b; ifchange a b T; ifchange b a;
done a 1; done b 1; ood; start a; ifchange a b T; done a 2; ood; stamp a 61; #; unlock a;"""
GUARDED = """? lock T; ? start T; ? ifchange T a; ? done T 5; ? ood; lock T; ? start T;
? unlock T; unlock T; ? targets; start T; ? ood; ? lock T; sources; ? lock T; ? lock T; ? ood;"""
# a name, two file stamps and a list of names that are as long as they may be
AT_LIMITS = f"""lock t; start t; lock {'n' * 255}; file a {'s' * 64};
ifchange t {' '.join(f'x{number}' for number in range(64))}; done t {'s' * 64}; ood;"""
LONGEST_LINE = f"lock t; start t; stamp t {'6' * 8184}; done t 1; ood;"
FILES = [COMMON, OBJECTS, REFUSED, APPEARS, ALWAYS, RING, GUARDED, AT_LIMITS, LONGEST_LINE]

# of several sessions
HISTORIES = [
    """history 10; 1 file a.c 10 => ok; 1 lock a.o => granted 1; 1 start a.o => ok;
1 ifchange a.o a.c => ok; 2 lock a.o => busy 1; 2 file a.c 11 => ok; 1 done a.o 20 => ok;
1 unlock a.o => ok; 2 unlock a.o => refused not-locked; 2 ood => ood a.o;""",
    """history 14; 64 start T => refused not-locked; 64 lock T => granted 1; 64 start T => ok;
64 start T => refused building; 2 unlock T => refused not-locked; 64 ifchange T T => refused self;
64 file x 1 => ok; 64 ifcreate T x y => refused exists x; 2 done T 5 => refused not-building;
64 ifchange T b a x => stale a b;
64 stamp T 616263 => stamped a9993e364706816aba3e25717850c26c9cd0d89d; 64 done T 5 => ok;
64 targets => targets T; 64 sources => sources x;""",
]

# a file with one command more than the limit ends with these
LAST_COMMANDS = b"lock c\nstart c\nstamp c 61\ndone c 1\nood\n"


def text_of(lines: str) -> bytes:
    """Lines that are written as above: each ends with a semicolon."""
    return lines.replace(";\n", ";").replace("; ", ";").replace(";", "\n").encode("ascii")


def half_of_run(file: bytes) -> bytes:
    """Half of the lines of a run text: the history and, if lines were skipped, a few more."""
    lines = run_text(file).splitlines(keepends=True)
    return "".join(lines[:len(lines) // 2]).encode("ascii")


def files() -> list[bytes]:
    return [text_of(lines) for lines in FILES]


def histories() -> list[bytes]:
    return [*map(half_of_run, files()), *map(text_of, HISTORIES)]


def long_file(commands: int) -> bytes:
    """A session file of this many commands, and some lines that are skipped."""
    some = {0: "file a 1", 1: "lock a", 2: "targets", 3: "unlock a"}
    lines = [some.get(number % 16, "gone b") for number in range(commands)]
    text = "\n".join(["# 4,096 commands are allowed.", "", *lines, ""])
    return text.encode("ascii")
