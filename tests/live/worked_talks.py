"""Conversations with redodb-live that were worked out by hand from docs/RULES.md: what is asked and
answered, and what of it the log has then."""
from typing import NamedTuple

from shared.talks import HEADER, sessions_text

# `+` is before a line that the log has, and `*` before one that closes a target of a session whose
# `end` comes next; the log has that, too. What is asked is before the arrow, also of a fault.
TALKS = {
    "a build, and what is asked in it": """
        + 1 file a.c 10 => ok
        + 1 lock a.o => granted 1
          2 lock a.o => busy 1
          2 start a.o => refused not-locked
        + 1 start a.o => ok
        + 1 ifchange a.o z.h a.h a.c => stale a.h z.h
          1 file a.c 10 => ok
          1 gone a.h => ok
        + 1 done a.o 20 => ok
        + 1 unlock a.o => ok
          1 ood => ood
        + 1 file a.h 1 => ok
          1 sources => sources a.c a.h
          1 ood => ood a.o
    """,
    "ends": """
        + 1 lock b => granted 1
        + 1 start b => ok
        + 1 lock a => granted 1
        + 2 lock c => granted 1
        * 1 unlock a => ok
        * 1 failed b => ok
        * 1 unlock b => ok
          1 end => ok
        + 2 lock b => granted 2
          1 lock c => busy 1
    """,
    "a name that has changed before": """
        + 1 file a 1 => ok
        + 1 file b 1 => ok
        + 1 lock t => granted 1
        + 1 start t => ok
        + 1 ifchange t a b => ok
        + 1 done t 5 => ok
        + 1 file b 2 => ok
          1 ood => ood t
        + 1 file a 2 => ok
        + 1 file b 1 => ok
          1 ood => ood t
        + 1 file a 1 => ok
          1 ood => ood
    """,
    "questions during builds": """
        + 1 file z.h 1 => ok
        + 1 file a.h 1 => ok
        + 1 lock t => granted 1
        + 1 start t => ok
        + 1 ifchange t z.h a.h => ok
        + 1 ifcreate t new.h => ok
        + 1 always t => ok
          2 why t => building t t
          2 state t => building 1 lock 1 file -
          2 state z.h => idle lock - file 1
        + 1 done t 5 => ok
        + 1 lock top => granted 1
        + 1 start top => ok
        + 1 ifchange top t => stale t
        + 1 done top - => ok
          2 why top => always t top t
          2 why a.h => clean
          2 why nobody => clean
          2 deps t => change 2 a.h z.h created 1 new.h always 1
          2 deps top => change 1 t created 0 always 0
          2 deps nobody => change 0 created 0 always 0
          2 state t => built lock 1 file 5
          2 state top => built lock 1 file -
          2 state nobody => idle lock - file -
        + 1 lock b => granted 1
        + 1 start b => ok
        + 1 ifchange b z.h => ok
          2 users z.h => change 2 b t created 0
          2 users t => change 1 top created 0
          2 users new.h => change 0 created 1 t
          2 users nobody => change 0 created 0
        + 1 stamp b 61 => stamped 86f7e437faa5a7fce15d1ddcb9eaeaea377667b8
          2 names => 6 z.h 1 idle 0 - - a.h 1 idle 0 - - t 5 built 1 5 - new.h - idle 0 - - top \
- built 1 - - b - building 0 - 86f7e437faa5a7fce15d1ddcb9eaeaea377667b8
    """,
    "a build, and one that fails": """
        + 1 file a.c 10 => ok
        + 1 lock a.o => granted 1
          2 lock a.o => busy 1
        + 1 start a.o => ok
        + 1 ifchange a.o a.c => ok
        + 1 done a.o 20 => ok
        + 1 file a.c 11 => ok
          2 ood => ood a.o
        * 1 unlock a.o => ok
          1 end => ok
        + 2 lock a.o => granted 2
        + 2 start a.o => ok
        * 2 failed a.o => ok
        * 2 unlock a.o => ok
          2 end => ok
    """,
    "numbers of sessions": """
        + 64 lock a => granted 1
          65 lock a => busy 1
        + 255 lock b => granted 1
          256 start b => refused not-locked
        + 255 start b => ok
          256 state b => building 255 lock 255 file -
        + 65535 lock c => granted 1
        + 65535 start c => ok
          1 state c => building 65535 lock 65535 file -
          65536 lock c => fault bad-session
          0 lock c => fault bad-session
        * 65535 failed c => ok
        * 65535 unlock c => ok
          65535 end => ok
        + 256 lock c => granted 2
        * 255 failed b => ok
        * 255 unlock b => ok
          255 end => ok
          1 state b => failed lock - file -
    """,
    "questions and their faults": """
        + 1 file util.h 1 => ok
        + 1 lock util.o => granted 1
        + 1 start util.o => ok
        + 1 ifchange util.o util.h => ok
        + 1 done util.o 2 => ok
        + 1 lock app => granted 1
        + 1 start app => ok
        + 1 ifchange app util.o => ok
        + 1 done app 3 => ok
        + 1 file util.h 4 => ok
          2 why app => changed util.h app util.o
          2 why util.h => clean
          2 deps util.o => change 1 util.h created 0 always 0
          2 state app => built lock 1 file 3
          2 state b => idle lock - file -
          2 deps b => change 0 created 0 always 0
          2 why b => clean
          3 why => fault wrong-words
          3 deps a b => fault wrong-words
          3 state - => fault bad-name
          3 users util.o => change 1 app created 0
          3 users => fault wrong-words
          3 names => 3 util.h 4 idle 0 - - util.o 2 built 1 2 - app 3 built 1 3 -
          3 names a => fault unknown-command
    """,
}

class Worked(NamedTuple):
    """What is asked, what is answered, and what the log has then."""

    asked: str
    said: str
    log: str


def answer(line: str) -> str:
    """The answer of a line of these conversations. A fault has the session alone before it."""
    asked, _, told = line.partition(" => ")
    if not told.startswith("fault "):
        return f"{line}\n"
    session = "0" if told == "fault bad-session" else asked.partition(" ")[0]
    return f"{session} {told}\n"


def worked(text: str) -> Worked:
    """One of these conversations."""
    asked, said, kept = "", "", ""
    for marked in sessions_text(text).splitlines():
        line = marked.removeprefix("+ ").removeprefix("* ")
        said += answer(line)
        kept += "" if line == marked else answer(line)
        asked += "" if marked.startswith("* ") else line.partition(" => ")[0] + "\n"
    return Worked(asked, said, HEADER + kept)


def many_names() -> Worked:
    """More names than a run takes are known, and stay so as more become known."""
    first, more = (
        "".join(f"1 gone n{number}\n" for number in range(count)) for count in (65_536, 81_921)
    )
    told = worked("""
        + 2 lock a => granted 1
          1 ifchange n0 a => refused not-building
    """), worked("""
          1 lock a => busy 1
        + 1 lock n81920 => granted 1
    """)
    said = [text.replace("\n", " => ok\n") for text in (first, more)]
    return Worked(
        first + told[0].asked + more + told[1].asked,
        said[0] + told[0].said + said[1] + told[1].said,
        told[0].log + told[1].log.removeprefix(HEADER),
    )


def all_talks() -> dict[str, Worked]:
    return {**{name: worked(text) for name, text in TALKS.items()}, "many names": many_names()}
