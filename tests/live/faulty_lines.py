"""Lines that redodb-live answers by a fault. The words were worked out from docs/RULES.md by hand."""
import resource
import subprocess
from pathlib import Path

from shared.talks import Checks, ended, greeting

# no number of a session and a space in front
BAD_SESSION = [
    "", " ", "1", "64", "ood", "0 ood", "00 ood", "01 ood", "065 ood", "65536 ood", "65537 ood", "99999 ood",
    "100000 ood", "131072 ood", "4294967297 ood",
    "+1 ood", "-1 ood", " 1 ood", "1\tood", "1.0 ood", "# 1 ood", "#", "? 1 ood", "?", "end", "1end", "x 1 ood",
    "0 end", "65536 end", "\xff", "\x00", "1\x00ood", "-", "a" * 8193, "65536 " + "a" * 9000, "ood " * 5000,
]
# the rest of a line that names its session, by its fault
FAULTS: dict[str, list[str]] = {
    "line-too-long": ["a" * 8193, "#" * 8193, " " * 8193, "\r" * 8193, "stamp t " + "a" * 8186, "end" + " " * 8190,
                      "\xff" * 100_000, "gone " + "a" * 8188, "gone " + "a" * 199_995],
    "bad-byte": ["lock a\r", "\r", "lock a\x7f", "lock\ta", "lock \xc3\xa9", "build\tt", "end\r", "\x00", "lock a\x1f",
                 "build \x80", "? lock a\r"],
    "unknown-command": ["", " ", "build a", "Lock a", " lock a", "locks a", "end ", "end x", " end", "END", "ends", "now", "end now",
                        "? lock a", "?", "# lock a", "history 0", "file: a", "2 lock a", "- a", "=> a", "a" * 8192],
    "wrong-words": ["file", "file a", "file a 1 2", "gone", "gone a b", "lock", "lock a b", "lock a ", "lock  a",
                    "unlock", "unlock a b", "start", "start a b", "ifchange", "ifchange a", "ifcreate", "ifcreate a",
                    "always", "always a b", "stamp", "stamp a", "stamp a 61 62", "done", "done a", "done a 1 2",
                    "failed", "failed a b", "ood a", "ood ", "targets a", "sources ", "lock - -", "gone #a b"],
    "too-many-names": ["ifchange t" + " a" * 65, "ifcreate t" + " a" * 65, "ifchange -" + " -" * 65,
                       "ifchange t" + " a" * 4000],
    "bad-name": ["lock -", "lock #a", "lock =>", "lock ", "gone -", "file - 1", "file #a -", "unlock =>", "start -",
                 "ifchange - a", "ifchange a -", "ifchange a b ", "ifchange a  b", "ifcreate a #b", "ifcreate =>  ",
                 "always -", "stamp - 6", "stamp #a 61", "done - =>", "failed -", "lock " + "a" * 256,
                 "gone " + "a" * 8187, "ifchange t" + " a" * 63 + " -"],
    "bad-stamp": ["file a -", "file a =>", "file a ", "file a " + "1" * 65, "done a =>", "done a ",
                  "done a " + "1" * 65],
    "bad-hex": ["stamp a 6", "stamp a 6g", "stamp a ", "stamp a 616", "stamp a =>", "stamp a --", "stamp a g0"],
}
# nothing changes by a fault, and these are the longest and the shortest that are none
ANSWERS = {
    "1 targets": "1 targets => targets",
    "1 sources": "1 sources => sources",
    "1 gone " + "a" * 255: "1 gone " + "a" * 255 + " => ok",
    "64 file a " + "1" * 64: "64 file a " + "1" * 64 + " => ok",
    "1 stamp t " + "a" * 8184: "1 stamp t " + "a" * 8184 + " => refused not-building",
    "64 stamp t " + "A" * 8184: "64 stamp t " + "a" * 8184 + " => refused not-building",
    "1 ifchange t" + " a" * 64: "1 ifchange t" + " a" * 64 + " => refused not-building",
    "1 lock end": "1 lock end => granted 1",
    "1 unlock end": "1 unlock end => ok",
    "1 file #": "1 fault wrong-words",
    "1 lock 1": "1 lock 1 => granted 1",
    "10 lock 1": "10 lock 1 => busy 1",
    "65 lock 1": "65 lock 1 => busy 1",
    "65535 lock 2": "65535 lock 2 => granted 1",
    "255 lock 2": "255 lock 2 => busy 1",
    "256 unlock 2": "256 unlock 2 => refused not-locked",
    "65535 end": "65535 unlock 2 => ok\n65535 end => ok",
    "1 file a #": "1 file a # => ok",
    "1 end": "1 unlock 1 => ok\n1 end => ok",
}


def check(program: Path, checks: Checks) -> None:
    """Each line alone, all of them in one conversation, and what the others are answered."""
    pairs = [(line, "0 fault bad-session") for line in BAD_SESSION]
    for word, texts in FAULTS.items():
        pairs += [(f"{session} {text}", f"{session} fault {word}") for text in texts for session in (1, 64, 65, 65_535)]
    for line, answer in pairs:
        checks.check(f"fault of {line[:60]!r}", ended(program, line + "\n"), (0, f"{greeting(0)}{answer}\n", ""))
    pairs += ANSWERS.items()
    asked, wanted = ("".join(f"{pair[at]}\n" for pair in pairs) for at in (0, 1))
    checks.check("all faults", ended(program, asked), (0, greeting(0) + wanted, ""))
    check_endless(program, checks)


def check_endless(program: Path, checks: Checks) -> None:
    """A line of 64 MiB takes no more memory than a short one."""
    with subprocess.Popen([program], stdin=subprocess.PIPE, stdout=subprocess.PIPE, stderr=subprocess.PIPE) as talk:
        assert talk.stdin and talk.stdout
        talk.stdin.write(b"7 lock a\n7 lock ")
        for _ in range(64):
            talk.stdin.write(b"a" * (1 << 20))
        talk.stdin.write(b"\n" + b"x" * (1 << 23) + b"\n7 unlock a\n")
        talk.stdin.close()
        said = talk.stdout.read().decode()
    wanted = "7 lock a => granted 1\n7 fault line-too-long\n0 fault bad-session\n7 unlock a => ok\n"
    checks.check("a line of 64 MiB", said, greeting(0) + wanted)
    peak = resource.getrusage(resource.RUSAGE_CHILDREN).ru_maxrss
    checks.check("a line of 64 MiB: memory", peak < 48_000, True)
