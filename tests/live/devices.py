"""Streams of redodb-live that fail, its words, and a second process."""
import os
import resource
import subprocess
from pathlib import Path

from shared import dumps
from shared.processes import Ended
from shared.talks import HEADER, TOP, Checks, Talk, ended, fault, greeting

USAGE = [
    ["--log"], ["--sync"], ["--salvage"], ["--log", "J", "--log", "J"], ["--log", "J", "word"], ["word"], ["-"], ["--"],
    ["--logs", "J"], ["--log", "J", "--sync", "--sync"], ["--sync", "--salvage"], ["-h"], ["-V"], ["help"],
    ["--log", "J", "--journal"], ["--log", os.fsdecode(b"\xff")],
    ["--compact"], ["--whole"], ["--compact", "--whole"], ["--salvage", "--compact"], ["--sync", "--whole"],
    ["--log", "J", "--compact", "--whole"], ["--whole", "--log", "J", "--compact", "--sync", "--salvage"],
    ["--log", "J", "--compact", "--compact"], ["--log", "J", "--whole", "--whole"],
    ["--backup", "K"], ["--backup"], ["--log", "J", "--backup"], ["--log", "J", "--backup", "K", "--backup", "L"],
    ["--log", "J", "--backup", "K", "--sync"], ["--salvage", "--log", "J", "--backup", "K"],
    ["--log", "J", "--compact", "--backup", "K"], ["--backup", "K", "--log", "J", "--whole"],
]


class Devices:
    """The cases, in a folder of their own."""

    def __init__(self, program: Path, folder: Path, checks: Checks) -> None:
        self.program, self.folder, self.checks = program, folder, checks

    def words(self) -> None:
        for words in USAGE:
            got = ended(self.program, "1 ood\n", *words, cwd=self.folder)
            self.checks.check(f"usage: {words}", got, fault("usage"))
        self.checks.check("usage: no file comes of it", sorted(self.folder.glob("[JKL]")), [])
        for words in (["--sync", "--log", "J"], ["--salvage", "--log", "J", "--sync"], ["--log", "J", "--whole"],
                      ["--whole", "--sync", "--log", "J", "--salvage"]):
            self.takes(words, HEADER)
        nothing = dumps.HEADER + dumps.dump_of(dumps.left_by(HEADER.encode()))
        for words in (["--log", "J", "--compact"], ["--compact", "--salvage", "--log", "J", "--sync"]):
            self.takes(words, nothing.decode())
        self.takes(["--log", "J", "--whole"], nothing.decode())

    def takes(self, words: list[str], log: str) -> None:
        """The program starts by these words on a log of which nothing is known, and leaves it so."""
        got = ended(self.program, "1 ood\n", *words, cwd=self.folder)
        self.checks.check(f"words: {words}", got, (0, f"{greeting(0)}1 ood => ood\n", ""))
        self.checks.check(f"words: {words}: the log", (self.folder / "J").read_text(), log)

    def wrapper(self) -> None:
        """./redodb-live answers these words at once, also if nothing is proved."""
        wrapper = TOP / "redodb-live"
        version = greeting(0).partition(" restored")[0]
        self.checks.check("--version", ended(wrapper, "", "--version"), (0, f"{version}\n", ""))
        status, said, errors = ended(wrapper, "", "--help")
        usage = "redodb-live [--log FILE [--sync] [--salvage] [--compact | --whole]]"
        self.checks.check("--help", (status, usage in said, errors), (0, True, ""))
        bare = self.folder / "redodb-live"
        bare.write_bytes(wrapper.read_bytes())
        bare.chmod(0o755)
        said = ended(bare, "1 ood\n")
        self.checks.check("nothing proved", (said[0], said[1], said[2].count("\n")), (2, "", 1))
        self.checks.check("nothing proved: what is wanted", "./prove" in said[2], True)

    def closed_reader(self) -> None:
        """Nobody reads the answer: it is in the log all the same, and the program ends."""
        log = self.folder / "reader.log"
        talk = Talk(self.program, self.folder, "--log", str(log))
        talk.hear()
        talk.answers.close()
        talk.send("1 lock a\n")
        self.checks.check("closed reader", talk.end(), (2, "redodb-live: write\n"))
        self.checks.check("closed reader: log", log.read_text(), HEADER + "1 lock a => granted 1\n")

    def closed_writer(self) -> None:
        """Nobody asks any more: the program ends, and closes nothing; the next one does."""
        log = self.folder / "writer.log"
        talk = Talk(self.program, self.folder, "--log", str(log))
        talk.send("1 lock a\n1 start a\n2 lock b\n")
        for wanted in (greeting(0), "1 lock a => granted 1\n", "1 start a => ok\n", "2 lock b => granted 1\n"):
            self.checks.check("closed writer: answer", talk.hear(), wanted)
        self.checks.check("closed writer", talk.end(), (0, ""))
        held = HEADER + "1 lock a => granted 1\n1 start a => ok\n2 lock b => granted 1\n"
        self.checks.check("closed writer: log", log.read_text(), held)
        closed = "1 failed a => ok\n1 unlock a => ok\n2 unlock b => ok\n"
        got = ended(self.program, "3 lock a\n", "--log", str(log))
        self.checks.check("the next one", got, (0, f"{greeting(3)}3 lock a => granted 2\n", ""))
        self.checks.check("the next one: log", log.read_text(), f"{held}{closed}3 lock a => granted 2\n")

    def no_input(self) -> None:
        self.checks.check("no input", ended(self.program, ""), (0, greeting(0), ""))
        self.checks.check("no LF", ended(self.program, "1 ood"), (0, greeting(0), ""))
        top = os.open("/", os.O_RDONLY)
        run = subprocess.run([self.program], stdin=top, capture_output=True, check=False)
        os.close(top)
        got = run.returncode, run.stdout.decode(), run.stderr.decode()
        self.checks.check("input that can't be read", got, (2, greeting(0), "redodb-live: -: read\n"))

    def full_devices(self) -> None:
        with open("/dev/full", "wb") as full:
            run = subprocess.run([self.program], stdin=subprocess.DEVNULL, stdout=full, stderr=subprocess.PIPE,
                                 check=False)
        self.checks.check("full output", (run.returncode, run.stderr), (2, b"redodb-live: write\n"))

    def limited(self, log: Path, limit: int, asked: str) -> Ended:
        """What is answered if no file can grow beyond this many bytes."""
        return ended(
            self.program, asked, "--log", str(log), restore_signals=False,
            preexec_fn=lambda: resource.setrlimit(resource.RLIMIT_FSIZE, (limit, limit)),
        )

    def full_disk(self) -> None:
        """What isn't whole in a log isn't answered, and is cut off later."""
        log = self.folder / "limited.log"
        line, closing = "1 lock a => granted 1\n", "1 unlock a => ok\n"
        for room in range(len(line)):
            name = f"room for {room} bytes"
            log.unlink(missing_ok=True)
            limit = len(HEADER) + len(line) + room
            got = self.limited(log, limit, "1 lock a\n")
            self.checks.check(f"{name}: the first line", got, (0, greeting(0) + line, ""))
            said = greeting(1) if room >= len(closing) else ""
            got = self.limited(log, limit, "2 gone x\n2 lock a\n2 lock b\n")
            self.checks.check(f"{name}: the next", got, (2, said, f"redodb-live: {log}: write\n"))
            said = greeting(2 if room >= len(closing) else 1)
            got = ended(self.program, "2 lock a\n", "--log", str(log))
            self.checks.check(f"{name}: a restart", got, (0, f"{said}2 lock a => granted 2\n", ""))
            kept = f"{HEADER}{line}{closing}2 lock a => granted 2\n"
            self.checks.check(f"{name}: log", log.read_text(), kept)

    def full_in_the_talk(self) -> None:
        """The disk is full when a line is answered: the answer doesn't leave, nor do those sent with it."""
        log = self.folder / "talk.log"
        got = self.limited(log, len(HEADER) + 30, "1 lock a\n2 ood\n2 lock b\n2 ood\n")
        self.checks.check("full when answering", got, (2, greeting(0), f"redodb-live: {log}: write\n"))
        got = ended(self.program, "2 targets\n", "--log", str(log))
        self.checks.check("full when answering: restart", got, (0, f"{greeting(1)}2 targets => targets\n", ""))

    def second_process(self) -> None:
        """The log is the first one's until it ends, by force or not."""
        log = self.folder / "shared.log"
        talk = Talk(self.program, self.folder, "--log", str(log))
        talk.hear()
        talk.send("1 lock a\n")
        talk.hear()
        for words in ([], ["--salvage"], ["--sync"]):
            got = ended(self.program, "1 ood\n", "--log", str(log), *words)
            self.checks.check(f"a second process {words}", got, fault(f"{log}: in use"))
        talk.send("1 unlock a\n")
        self.checks.check("the first process", talk.hear(), "1 unlock a => ok\n")
        talk.kill()
        got = ended(self.program, "1 lock a\n", "--log", str(log))
        self.checks.check("after the first was killed", got, (0, f"{greeting(2)}1 lock a => granted 2\n", ""))

    def noted(self, name: str, library: Path, asked: str, *words: str) -> list[str]:
        """The writes and syncs of a talk, in order."""
        notes = self.folder / name
        environment = {**os.environ, "LD_PRELOAD": str(library), "NOTES": str(notes)}
        ended(self.program, asked, *words, env=environment)
        return notes.read_text().splitlines()

    def writes(self) -> None:
        """Lines sent ahead share a write to the log, and one to the output after it; with --sync, a sync between.
        At the start the folder of a new log is synced; with --sync, any log that was there, and its folder."""
        library = self.folder / "noting.so"
        subprocess.run(["cc", "-shared", "-fPIC", "-O1", "-o", library, TOP / "tests/live/noting.c"], check=True)
        asked = "1 lock a\n2 ood\n1 unlock b\n1 start a\n2 lock b\n"
        logged = "1 lock a => granted 1\n1 start a => ok\n2 lock b => granted 1\n"
        said = "1 lock a => granted 1\n2 ood => ood\n1 unlock b => refused not-locked\n1 start a => ok\n"
        said += "2 lock b => granted 1\n"
        closing = "1 failed a => ok\n1 unlock a => ok\n2 unlock b => ok\n"
        first, out = f"out {len(greeting(0))}", f"out {len(said)}"
        got = self.noted("plain.notes", library, asked)
        self.checks.check("writes without a log", got, [first, out])
        for words, sync in (([], []), (["--sync"], ["sync"])):
            log = self.folder / f"noted{len(words)}.log"
            talk = ["--log", str(log), *words]
            got = self.noted(f"{log.stem}.begun", library, asked, *talk)
            wanted = ["sync", f"log {len(HEADER)}", *sync, first, f"log {len(logged)}", *sync, out]
            self.checks.check(f"writes {words}", got, wanted)
            got = self.noted(f"{log.stem}.again", library, "3 ood\n", *talk)
            wanted = [*sync, f"log {len(closing)}", *sync, first, f"out {len('3 ood => ood') + 1}"]
            self.checks.check(f"writes of a restart {words}", got, wanted)

    def all(self) -> None:
        self.words()
        self.wrapper()
        self.closed_reader()
        self.closed_writer()
        self.no_input()
        self.full_devices()
        self.full_disk()
        self.full_in_the_talk()
        self.second_process()
        self.writes()
