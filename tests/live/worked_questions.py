"""Questions whose answers were worked out by hand from docs/RULES.md, their faults, and what they
leave."""
import re
import subprocess
from pathlib import Path

from shared.databases import text_of
from shared.talks import (
    HEADER, TOP, Checks, changing, ended, fault, greeting, line_by_line, pairs_of, sessions_text,
)

# each reason if it is the only one, chains of two lengths, and questions around an `end`
WORKED = """
    > 1 names
    1 names => 0
    > 1 why a
    1 why a => clean
    > 1 deps a
    1 deps a => change 0 created 0 always 0
    > 1 users a
    1 users a => change 0 created 0
    > 1 state a
    1 state a => idle lock - file -
    > 1 file a 7
    1 file a 7 => ok
    > 1 names
    1 names => 1 a 7 idle 0 - -
    > 1 state a
    1 state a => idle lock - file 7
    > 1 why a
    1 why a => clean
    > 2 lock a
    2 lock a => granted 1
    > 64 state a
    64 state a => idle lock 2 file 7
    > 2 start a
    2 start a => ok
    > 1 state a
    1 state a => building 2 lock 2 file 7
    > 1 why a
    1 why a => building a a
    > 2 ifchange a z b
    2 ifchange a z b => stale b z
    > 64 names
    64 names => 3 a 7 building 0 - - z - idle 0 - - b - idle 0 - -
    > 1 deps a
    1 deps a => change 2 b z created 0 always 0
    > 1 users z
    1 users z => change 1 a created 0
    > 2 failed a
    2 failed a => ok
    > 1 users b
    1 users b => change 1 a created 0
    > 1 state a
    1 state a => failed lock 2 file 7
    > 1 why a
    1 why a => failed a a
    > 2 start a
    2 start a => ok
    > 1 deps a
    1 deps a => change 0 created 0 always 0
    > 1 users b
    1 users b => change 0 created 0
    > 2 ifcreate a c b! b
    2 ifcreate a c b! b => ok
    > 2 ifchange a d c
    2 ifchange a d c => stale c d
    > 1 deps a
    1 deps a => change 2 c d created 3 b b! c always 0
    > 1 users c
    1 users c => change 1 a created 1 a
    > 1 users b!
    1 users b! => change 0 created 1 a
    > 1 users d
    1 users d => change 1 a created 0
    > 2 done a #
    2 done a # => ok
    > 2 unlock a
    2 unlock a => ok
    > 1 state a
    1 state a => built lock - file #
    > 1 why a
    1 why a => clean
    > 1 file b 1
    1 file b 1 => ok
    > 1 why a
    1 why a => appeared b a
    > 1 why b
    1 why b => clean
    > 1 gone b
    1 gone b => ok
    > 1 file d 1
    1 file d 1 => ok
    > 1 why a
    1 why a => changed d a
    > 1 gone d
    1 gone d => ok
    > 1 file a 7
    1 file a 7 => ok
    > 1 why a
    1 why a => edited a a
    > 1 gone a
    1 gone a => ok
    > 1 why a
    1 why a => edited a a
    > 1 state a
    1 state a => built lock - file -
    > 1 file a #
    1 file a # => ok
    > 1 why a
    1 why a => clean
    > 1 lock e
    1 lock e => granted 1
    > 1 start e
    1 start e => ok
    > 1 always e
    1 always e => ok
    > 1 deps e
    1 deps e => change 0 created 0 always 1
    > 1 done e -
    1 done e - => ok
    > 1 why e
    1 why e => always e e
    > 1 state e
    1 state e => built lock 1 file -
    > 1 start e
    1 start e => ok
    > 1 deps e
    1 deps e => change 0 created 0 always 0
    > 1 ifchange e a
    1 ifchange e a => ok
    > 1 stamp e 61
    1 stamp e 61 => stamped 86f7e437faa5a7fce15d1ddcb9eaeaea377667b8
    > 1 names
    1 names => 7 a # built 1 # - z - idle 0 - - b - idle 0 - - c - idle 0 - - b! - idle 0 - - d - idle 0 - - \
e - building 1 - 86f7e437faa5a7fce15d1ddcb9eaeaea377667b8
    > 1 done e 5
    1 done e 5 => ok
    > 1 why e
    1 why e => clean
    > 1 lock f
    1 lock f => granted 1
    > 1 start f
    1 start f => ok
    > 1 ifchange f e
    1 ifchange f e => ok
    > 1 done f 6
    1 done f 6 => ok
    > 1 file d 2
    1 file d 2 => ok
    > 1 why f
    1 why f => changed d f e a
    > 1 why e
    1 why e => changed d e a
    > 2 file b! 2
    2 file b! 2 => ok
    > 2 gone d
    2 gone d => ok
    > 2 why f
    2 why f => appeared b! f e a
    > 1 start f
    1 start f => ok
    > 1 ifchange f e a
    1 ifchange f e a => stale a e
    > 1 done f 6
    1 done f 6 => ok
    > 2 why f
    2 why f => appeared b! f a
    > 2 users a
    2 users a => change 2 e f created 0
    > 2 users e
    2 users e => change 1 f created 0
    > 2 users f
    2 users f => change 0 created 0
    > 2 gone b!
    2 gone b! => ok
    > 2 why f
    2 why f => clean
    > 1 start f
    1 start f => ok
    > 1 state f
    1 state f => building 1 lock 1 file 6
    > 1 end
    1 unlock e => ok
    1 failed f => ok
    1 unlock f => ok
    1 end => ok
    > 1 names
    1 names => 8 a # built 1 # - z - idle 0 - - b - idle 0 - - c - idle 0 - - b! - idle 0 - - d - idle 0 - - \
e 5 built 2 5 86f7e437faa5a7fce15d1ddcb9eaeaea377667b8 f 6 failed 2 6 -
    > 1 state f
    1 state f => failed lock - file 6
    > 1 why f
    1 why f => failed f f
    > 1 state e
    1 state e => built lock - file 5
    > 2 end
    2 end => ok
    > 1 why end
    1 why end => clean
    > 1 deps why
    1 deps why => change 0 created 0 always 0
    > 1 users users
    1 users users => change 0 created 0
    > 1 state state
    1 state state => idle lock - file -
"""
# what follows the session's number, by its fault
FAULTS = {
    "line-too-long": ["why " + "a" * 8189, "deps" + " " * 8189, "state a" + "\r" * 8190,
                      "users " + "a" * 8187],
    "bad-byte": ["why a\r", "deps a\x7f", "state \xe9", "why\ta", "state\r", "why - -\0",
                 "users a\t"],
    "unknown-command": ["Why a", "whys a", "DEPS a", "state: a", " why a", "? why a", "why=a",
                        "user a", "Users a", "names ", "names a", "Names",
                        "name"],
    "wrong-words": ["why", "deps", "state", "why a b", "deps a b", "state a b", "why a ",
                    "deps  a", "state a -", "why - -", "deps #a =>", "state a b c", "users", "users a b",
                    "users a "],
    "bad-name": ["why -", "deps =>", "state #", "why ", "deps #a", "state " + "a" * 256,
                 "why =>", "deps ", "state -", "why " + "a" * 8188, "users -", "users =>", "users "],
}
# what the questions are answered about a name that nobody spoke of, and some names
UNKNOWN = {"why": "clean", "deps": "change 0 created 0 always 0", "users": "change 0 created 0",
           "state": "idle lock - file -"}
NEW = ["new", "other", "n0", "n65533", *(f"new{at}" for at in range(20))]
QUESTION = re.compile(r"\d+ (?:(?:why|deps|users|state) |names(?: =>|$))")


def is_question(line: str) -> bool:
    """Whether a line is a question, or the answer to one."""
    return QUESTION.match(line) is not None


class Worked:
    """The cases, in a folder of their own."""

    def __init__(self, program: Path, folder: Path, checks: Checks) -> None:
        self.program, self.folder, self.checks = program, folder, checks

    def worked(self) -> None:
        pairs = pairs_of(WORKED)
        line_by_line(self.checks, self.program, self.folder, "worked", pairs)
        asked, answers = ("".join(texts) for texts in zip(*((a, "".join(b)) for a, b in pairs)))
        log = self.folder / "worked.log"
        got = ended(self.program, asked, "--log", str(log))
        self.checks.check("worked, sent ahead", got, (0, greeting(0) + answers, ""))
        lines = [line for line in answers.splitlines(keepends=True) if not is_question(line)]
        history = [line for line in lines if not line.endswith(" end => ok\n")]
        wanted = HEADER + "".join(changing(history))
        self.checks.check("worked: the log has no question", log.read_text(), wanted)

    def example(self) -> None:
        """What docs/EXAMPLES.md shows."""
        page = (TOP / "docs/EXAMPLES.md").read_text()
        section = page.partition("## Why a target is out of date\n")[2].partition("\n## ")[0]
        script, *told = re.findall(r"(?:^    .*\n)+", section, re.M)
        script = sessions_text(script).replace("./redodb-live", f"'{self.program}'")
        run = subprocess.run(["bash", "-c", script], capture_output=True, text=True, check=False)
        got = [line for line in run.stdout.splitlines()[1:] if is_question(line)]
        self.checks.check("example", got, sessions_text("".join(told)).splitlines())

    def faults(self) -> None:
        """Each is answered by its fault, and changes nothing."""
        pairs = [(f"{session} {text}\n", f"{session} fault {word}\n")
                 for word, texts in FAULTS.items() for text in texts for session in (1, 64, 65, 65_535)]
        pairs += [(f"{session}why a\n", "0 fault bad-session\n")
                  for session in ("", " ", "0 ", "65536 ", "01 ", "1", "? 1 ")]
        pairs.append((f"1 why {'a' * 255}\n", f"1 why {'a' * 255} => clean\n"))
        asked, wanted = ("".join(texts) for texts in zip(*pairs))
        log = self.folder / "faults.log"
        got = ended(self.program, asked, "--log", str(log))
        self.checks.check("faults", got, (0, greeting(0) + wanted, ""))
        self.checks.check("faults: the log", log.read_text(), HEADER)

    def log_with_a_question(self) -> None:
        """No line of a log is a question."""
        log = self.folder / "question.log"
        for question, told in UNKNOWN.items():
            text = f"{HEADER}1 lock a => granted 1\n1 {question} b => {told}\n"
            log.write_text(text)
            got = ended(self.program, "", "--log", str(log))
            self.checks.check(f"a log with {question}", got, fault(f"{log}: line 3 differs"))
            self.checks.check(f"a log with {question}: kept", log.read_text(), text)

    def names(self) -> None:
        """Questions about names that nobody spoke of are answered among many names, before and after others of them."""
        most = [f"1 ifchange t {' '.join(f'n{64 * line + at}' for at in range(64))}"
                for line in range(1100)]
        unknown = [(f"{session} {question} {name}", told) for session, name in enumerate(NEW, 1)
                   for question, told in UNKNOWN.items()]
        pairs = [(line, f"{line} => refused not-building") for line in most]
        pairs += [(line, f"{line} => {told}") for line, told in unknown]
        pairs += [("1 lock last", "1 lock last => granted 1")]
        pairs += [(line, f"{line} => {told}") for line, told in unknown]
        pairs += [("9 state last", "9 state last => idle lock 1 file -")]
        asked, wanted = (text_of(lines) for lines in zip(*pairs))
        got = ended(self.program, asked)
        self.checks.check("70,401 names", got, (0, greeting(0) + wanted, ""))

    def all(self) -> None:
        self.worked()
        self.example()
        self.faults()
        self.log_with_a_question()
        self.names()
