"""Logs of redodb-live: what is in them, and how they are read again."""
from pathlib import Path

from shared.talks import HEADER, TOP, Checks, ended, fault, greeting

# each line that changes something, with the lines before it that don't, and their answers
TOLD = """\
1 gone a.c => ok
1 file a.c 10 => ok
1 file a.c 10 => ok
1 unlock a.o => refused not-locked
1 lock a.o => granted 1
2 lock a.o => busy 1
1 unlock b => refused not-locked
1 start a.o => ok
2 start a.o => refused not-locked
1 ifchange a.o a.c b => stale b
1 ifcreate a.o c => ok
1 ifcreate a.o a.c => refused exists a.c
1 always a.o => ok
1 stamp a.o 61 => stamped 86f7e437faa5a7fce15d1ddcb9eaeaea377667b8
1 stamp a.o 61 => stamped 86f7e437faa5a7fce15d1ddcb9eaeaea377667b8
1 unlock a.o => refused building
1 ood => ood
1 done a.o 20 => ok
1 done a.o 20 => refused not-building
1 file a.o 20 => ok
1 file a.o 21 => ok
1 targets => targets a.o
1 sources => sources a.c
1 gone a.c => ok
1 gone a.c => ok
1 ood => ood a.o
1 start a.o => ok
1 ifchange a.o a.o => refused self
1 failed a.o => ok
1 unlock a.o => ok
"""
SILENT = {0, 2, 3, 5, 6, 8, 11, 15, 16, 18, 19, 21, 22, 24, 25, 27}
LINES = TOLD.splitlines(keepends=True)
KEPT = "".join(line for at, line in enumerate(LINES) if at not in SILENT)
ASKED = "".join(line.partition(" => ")[0] + "\n" for line in LINES)
# a log whose last session is in the midst of a build
HELD = HEADER + "1 file a 1 => ok\n2 lock t => granted 1\n2 start t => ok\n"
CLOSED = "2 failed t => ok\n2 unlock t => ok\n"
# one session builds a target, another locks a name
BUILT = HEADER + """\
1 file a.c 10 => ok
1 lock a.o => granted 1
1 start a.o => ok
2 lock b => granted 1
1 ifchange a.o z.h a.c => stale z.h
1 done a.o 20 => ok
"""
# sessions whose numbers have up to five digits
NUMBERED = HEADER + """\
1 file a.c 10 => ok
64 lock a => granted 1
65 lock b => granted 1
255 lock c => granted 1
256 lock d => granted 1
65535 lock e => granted 1
65535 unlock e => ok
"""
# a log that begins with a dump: no name is known
DUMPED = "redodb-log 2\nstate 0 0 49d53525733ab592fe7182d48f3e73401a9763ca\n"
# lines in the place of the second, none of which is the answer there
OTHERS = {
    "another reply": "2 lock t => granted 2\n",
    "another grant that is in use": "2 lock t => busy 1\n",
    "a release of what is free": "2 unlock t => ok\n",
    "content that is lacking": "2 stamp t => stamped\n",
    "a reply of another form": "2 lock t => ok\n",
    "no reply": "2 lock t\n",
    "an empty line": "\n",
    "an empty reply": "2 lock t => \n",
    "a space at the end": "2 lock t => granted 1 \n",
    "a return": "2 lock t => granted 1\r\n",
    "two arrows": "2 lock t => granted 1 => ok\n",
    "no session": "lock t => granted 1\n",
    "a session of two digits": "02 lock t => granted 1\n",
    "session 0": "0 lock t => granted 1\n",
    "a space in front": " 2 lock t => granted 1\n",
    "a word": "hello\n",
    "session 65,536": "65536 lock t => granted 1\n",
    "a session of six digits": "100002 lock t => granted 1\n",
    "a fault": "2 fault bad-name\n",
    "an end": "2 end => ok\n",
    "an unknown command": "2 build t => ok\n",
    "a guard": "2 ? lock t => granted 1\n",
    "content in upper case": "2 stamp t AB => refused not-building\n",
    "a bad name": "2 lock - => granted 1\n",
    "a note": "# a note\n",
    "zeros": "\0" * 22 + "\n",
    "the header again": HEADER,
    "a long line": "2 lock " + "t" * 9000 + " => granted 1\n",
}


class Logs:
    """The cases, in a folder of their own."""

    def __init__(self, program: Path, folder: Path, checks: Checks) -> None:
        self.program, self.folder, self.checks = program, folder, checks
        self.log, self.damaged = folder / "log", folder / "log.damaged"

    def opens(self, name: str, text: str, restored: int, wanted: str, *words: str) -> None:
        """A log with this text is restored so far, and has the wanted text then."""
        self.log.write_bytes(text.encode("latin-1"))
        got = ended(self.program, "", "--log", str(self.log), *words)
        self.checks.check(name, got, (0, greeting(restored), ""))
        self.checks.check(f"{name}: log", self.log.read_bytes().decode("latin-1"), wanted)

    def differs(self, name: str, text: str, line: int) -> None:
        """A log with this text is refused, and stays as it is."""
        self.log.write_bytes(text.encode("latin-1"))
        got = ended(self.program, "1 lock a\n", "--log", str(self.log))
        self.checks.check(name, got, fault(f"{self.log}: line {line} differs"))
        self.checks.check(f"{name}: log", self.log.read_bytes().decode("latin-1"), text)
        self.checks.check(f"{name}: copy", self.damaged.exists(), False)

    def salvages(self, name: str, text: str, kept: str) -> None:
        """A log with this text is copied, and cut to what is kept, which is closed then."""
        self.log.write_bytes(text.encode("latin-1"))
        self.damaged.unlink(missing_ok=True)
        lines = max(kept.count("\n") - 1, 0)
        status, said, errors = ended(self.program, "2 lock t\n", "--log", str(self.log), "--salvage")
        self.checks.check(name, (status, said.splitlines()[:1]), (0, [greeting(lines).strip()]))
        told = f"redodb-live: {self.log}: {lines} lines kept, {len(text) - len(kept)} bytes cut off\n"
        self.checks.check(f"{name}: what is said", errors, told)
        copy = self.damaged.read_bytes().decode("latin-1") if self.damaged.exists() else None
        self.checks.check(f"{name}: copy", copy, text)
        now = self.log.read_bytes().decode("latin-1")
        self.checks.check(f"{name}: log", now.startswith(kept or HEADER), True)
        self.damaged.unlink(missing_ok=True)

    def contents(self) -> None:
        """The log has exactly the lines that change something, synced or not, sent ahead or one by one."""
        for words in ([], ["--sync"]):
            self.log.unlink(missing_ok=True)
            got = ended(self.program, ASKED, "--log", str(self.log), *words)
            self.checks.check(f"answers {words}", got, (0, greeting(0) + TOLD, ""))
            self.checks.check(f"contents {words}", self.log.read_text(), HEADER + KEPT)
        again = "1 targets\n1 ood\n1 sources\n1 lock a.o\n"
        wanted = "1 targets => targets a.o\n1 ood => ood a.o\n1 sources => sources\n1 lock a.o => granted 2\n"
        got = ended(self.program, again, "--log", str(self.log))
        self.checks.check("a restart", got, (0, greeting(KEPT.count("\n")) + wanted, ""))
        self.checks.check("its log", self.log.read_text(), HEADER + KEPT + "1 lock a.o => granted 2\n")

    def restarts(self) -> None:
        self.opens("an empty file", "", 0, HEADER)
        for at in range(1, len(HEADER)):
            self.opens(f"a header of {at} bytes", HEADER[:at], 0, HEADER)
        self.opens("a header alone", HEADER, 0, HEADER)
        self.opens("a session that builds", HELD, 3, HELD + CLOSED)
        self.opens("a closed log", HELD + CLOSED, 5, HELD + CLOSED)
        self.opens("lines that change nothing", HEADER + "1 ood => ood\n1 gone a => ok\n", 2,
                   HEADER + "1 ood => ood\n1 gone a => ok\n")
        self.opens("a torn line", HELD + "2 done t 1 => o", 3, HELD + CLOSED)
        self.opens("a torn line that is another answer", HELD + "2 done t 1 => refused", 3, HELD + CLOSED)
        self.opens("a whole answer without LF", HELD + "2 done t 1 => ok", 3, HELD + CLOSED)
        self.opens("zeros at the end", HELD + "\0" * 5000, 3, HELD + CLOSED)
        self.opens("a torn line, with --salvage", HELD + "2 done", 3, HELD + CLOSED, "--salvage")
        self.checks.check("a torn line, with --salvage: copy", self.damaged.exists(), False)
        many = "".join(f"{s} lock t{s} => granted 1\n" for s in range(64, 0, -1))
        closed = "".join(f"{s} unlock t{s} => ok\n" for s in range(1, 65))
        self.opens("64 sessions", HEADER + many, 64, HEADER + many + closed)

    def worked(self) -> None:
        """Logs that were worked out by hand. What comes after the last LF is left out."""
        left = BUILT + "1 unlock a.o => ok\n2 unlock b => ok\n"
        for rest in ("", "1", "1 unlock a.o => o", "1 unlock a.o => ok", "nothing"):
            self.opens(f"a target that was built, and {rest!r}", BUILT + rest, 6, left)
        self.opens("a header, and a part of a line", HEADER + "1 fi", 0, HEADER)
        closed = "64 unlock a => ok\n65 unlock b => ok\n255 unlock c => ok\n256 unlock d => ok\n"
        self.opens("numbers of five digits", NUMBERED, 7, NUMBERED + closed)

    def damage(self) -> None:
        first, second, third = HELD[len(HEADER):].splitlines(keepends=True)
        for name, other in OTHERS.items():
            self.differs(name, HEADER + first + other + third, 3)
            self.salvages(f"{name}, with --salvage", HEADER + first + other + third, HEADER + first)
        self.differs("a line is lacking", HEADER + first + third, 3)
        self.differs("the header is lacking", first + second, 1)
        self.differs("another header", "redodb-log 3\n" + first, 1)
        self.differs("a space after the header", "redodb-log 1 \n", 1)
        self.differs("another number without LF", "redodb-log 10", 1)
        self.differs("an empty line alone", "\n", 1)
        self.differs("no log", "int main(void) { return 0; }\n", 1)
        self.differs("a word without LF", "precious", 1)
        self.differs("a history", "history 1\n1 ood => ood\n", 1)
        self.differs("a zero in front", "\0" + HELD, 1)
        self.differs("the header ends by a return", "redodb-log 1\r\n", 1)
        self.differs("two lines differ, the last is torn", HEADER + "1 ood => ok\n1 ood => ok\n1 oo", 2)
        block = HELD[:30] + "\0" * 4096 + HELD[34:] + "1 gone b => ok\n"
        self.differs("a block of zeros", block, 3)
        self.salvages("a block of zeros, with --salvage", block, HEADER + first)
        self.salvages("another header, with --salvage", "redodb-log 3\n" + first, "")
        self.salvages("the last line differs, with --salvage", HELD + "1 gone b => no\n", HELD)

    def copies(self) -> None:
        """A copy that is there is never written over."""
        text = HEADER + "1 ood => ok\n"
        self.log.write_text(text)
        self.damaged.write_text("precious")
        got = ended(self.program, "1 lock a\n", "--log", str(self.log), "--salvage")
        self.checks.check("a second copy", got, fault(f"{self.damaged}: is there already"))
        self.checks.check("the first copy", self.damaged.read_text(), "precious")
        self.checks.check("its log", self.log.read_text(), text)
        self.damaged.unlink()

    def places(self) -> None:
        for name in ("nowhere/log", "log/", ""):
            got = ended(self.program, "1 lock a\n", "--log", name, cwd=self.folder)
            self.checks.check(f"a log that can't be opened: {name!r}", got, fault(f"{name}: cannot open"))

    def histories(self) -> None:
        """tools/history prints a log as a history, and refuses what is none."""
        for text, wanted in (
            (HELD, (0, HELD.replace(HEADER, "history 3\n"), "")),
            (HEADER, (0, "history 0\n", "")),
            (HELD + "2 done t", (0, HELD.replace(HEADER, "history 3\n"), "")),
            ("", (2, "", f"history: {self.log}: no log\n")),
            (HEADER[:-1], (2, "", f"history: {self.log}: no log\n")),
            ("history 0\n", (2, "", f"history: {self.log}: no log\n")),
            (DUMPED, (2, "", f"history: {self.log}: it begins with a state\n")),
            (DUMPED + "1 file a 1 => ok\n", (2, "", f"history: {self.log}: it begins with a state\n")),
            ("redodb-log 3\n", (2, "", f"history: {self.log}: no log\n")),
        ):
            self.log.write_text(text)
            self.checks.check(f"tools/history of {text!r}", ended(TOP / "tools/history", "", str(self.log)), wanted)
        self.large_histories()
        self.log.unlink()
        wanted = 2, "", f"history: {self.log}: No such file or directory\n"
        self.checks.check("tools/history of no file", ended(TOP / "tools/history", "", str(self.log)), wanted)

    def large_histories(self) -> None:
        """tools/history prints all of a log, and says what of it a replay refuses: each at its limit, and one more."""
        spread = [f"1 file n{number} 1 => ok\n" for number in range(65_537)]
        listed = f"2 ifchange n0 {' '.join(f'n{number}' for number in range(65_530, 65_537))} => ok\n"
        again = ["64 gone a => ok\n", "64 file a 1 => ok\n"] * (1 << 19)
        for lines, excess in (
            (spread[:-1], ""),
            (spread, "65,537 names (65,536)"),
            ([*spread[:-1], listed, "64 lock n0 => granted 1\n"], "65,537 names (65,536)"),
            (["65 lock a => granted 1\n"], "session 65 (64)"),
            (["65535 lock a => granted 1\n", *spread], "65,538 names (65,536), session 65,535 (64)"),
            (again, ""),
            ([*again, "1 gone a => ok\n"], "1,048,577 lines (1,048,576)"),
        ):
            self.log.write_text(HEADER + "".join(lines))
            told = f"history: {self.log}: more than redodb replay takes: {excess}\n" if excess else ""
            got = ended(TOP / "tools/history", "", str(self.log))
            wanted = 0, f"history {len(lines)}\n" + "".join(lines), told
            self.checks.check(f"tools/history of {len(lines)} lines: {excess}", got == wanted, True)

    def all(self) -> None:
        self.histories()
        self.contents()
        self.restarts()
        self.worked()
        self.damage()
        self.copies()
        self.places()
