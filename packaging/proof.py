"""The file PROOF: of which source the programs are, what is proved of them, and what is tested."""
import hashlib
import re
import time
from pathlib import Path

from machine import TOP, output
from staging import LIBRARY, programs, wanted
from state import State

PAGE = TOP / "docs/PROMISES.md"
TESTED = "## What is only tested"
OTHERS = """\
- redo, its server, the Python package, library/redodb.c and ./release: Rust, Python, C and scripts,
  of which nothing is proved. Their tests are in tests/ and redo/.
"""
TEXT = """\
redodb {version}: of which source it is, what is proved, and what is tested

Commit:   {commit} of {day}
Kit:      {kit}
./check:  {gate}
Built by: {compilers}

THE PROGRAMS

The packages of Debian have the programs redodb and redodb-live as the kit linked them when they
were proved, byte for byte. The .tar.gz has the same object files, linked statically by cc:
./release has linked these by the kit's linker as well, and got the bytes that the proof had. redo
and redo-server are linked statically in both. libredodb.so.0 is the same file in both.

sha256, newest glibc that the file wants (- for none), file:

Packages of Debian
{dynamic}
redodb-{version}-x86_64-linux.tar.gz
{static}
WHAT IS PROVED

docs/PROMISES.md has each claim with the contract that carries it. It has these parts:

{claims}
WHAT IS ONLY TESTED

{tested}
TO PROVE IT AGAIN

    git clone URL redodb && cd redodb && git checkout {short}
    ./prove --library                     # wants the kit
    sha256sum crates/*/out/redodb_cli crates/*/out/redodb_live_cli library/out/libredodb.so.0
    ./check                               # the proofs, the edits that they refuse, all tests

Which source is what is proved, and what the proof rests on: docs/BELIEVE.md.
"""


def digests(stage: Path) -> str:
    """A line for each compiled file."""
    lines = ""
    for file in programs(stage):
        newest = ".".join(map(str, wanted(file)))
        digest = hashlib.sha256(file.read_bytes()).hexdigest()
        name = file.relative_to(stage)
        lines += f"{digest}  {'-' if newest == '0' else newest:6} {name}\n"
    return lines


def claims(page: str) -> str:
    """The parts of PROMISES that are proved, one a line."""
    titles = re.findall(r"^## (.*)$", page.partition(TESTED)[0], re.M)
    return "".join(f"- {plain(title)}\n" for title in titles)


def tested(page: str) -> str:
    """What is only tested, as PROMISES says it."""
    part = page.partition(TESTED + "\n")[2].partition("\n## ")[0]
    return plain(part.strip()) + "\n" + OTHERS


def plain(text: str) -> str:
    """A text without its marks of code and links."""
    return re.sub(r"\[(.*?)\]\(.*?\)", r"\1", text).replace("`", "")


def compilers() -> str:
    words = ["--version"]
    lines = [output([name, *words]).splitlines()[0] for name in ("cc", "rustc", "ldd")]
    return ", ".join(lines)


def proof(state: State, dynamic: Path, static: Path) -> str:
    """The text of PROOF."""
    page = PAGE.read_text()
    return TEXT.format(
        version=state.version,
        commit=state.commit,
        short=state.commit[:8],
        day=time.strftime("%Y-%m-%d", time.gmtime(state.seconds)),
        kit=state.kit,
        gate=state.gate,
        compilers=compilers(),
        dynamic=digests(dynamic),
        static=digests(static),
        claims=claims(page),
        tested=tested(page),
    )
