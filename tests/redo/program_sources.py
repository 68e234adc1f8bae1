"""A C program of the size of zlib, made by a generator with a fixed seed.

It has 10 headers in `include`, which include each other, and 20 files in `src`. A header that
appears in `local` is found before the one of the same name in `include`."""
import random
from dataclasses import dataclass, field

SEED = 37
HEADERS = 10
MODULES = 19
FUNCTIONS = 14
FLAGS = "-O0 -Ilocal -Iinclude"
ALL_DO = "redo-ifchange prog\n"
PROG_DO = """\
redo-ifchange objects
xargs redo-ifchange <objects
xargs gcc -o "$3" <objects
"""
OBJECT_DO = """\
redo-ifchange "$2.c"
gcc FLAGS -MD -MF "$3.d" -c "$2.c" -o "$3"
read=$(sed 's/^[^ ]*://; s/\\\\$//' "$3.d")
rm "$3.d"
redo-ifchange $read
for file in $read; do
    other=local/${file#include/}
    case $file in include/*) [ -e "$other" ] || echo "$other" ;; esac
done | xargs -r redo-ifcreate
""".replace(
    "FLAGS", FLAGS
)
NINJA = """\
rule cc
  command = gcc FLAGS -MD -MF $out.d -c $in -o $out
  description = $out
  depfile = $out.d
  deps = gcc
rule link
  command = gcc -o $out $in
  description = $out
""".replace(
    "FLAGS", FLAGS
)


def header_name(number: int) -> str:
    return f"part{number}.h"


@dataclass
class Program:
    """The texts of a program's files by their names."""

    files: dict[str, str] = field(default_factory=dict)

    @property
    def sources(self) -> list[str]:
        """The names of the C files."""
        return [name for name in self.files if name.endswith(".c")]

    @property
    def headers(self) -> list[str]:
        return [name for name in self.files if name.endswith(".h")]

    @property
    def objects(self) -> list[str]:
        return [object_of(source) for source in self.sources]


def object_of(source: str) -> str:
    return source.removesuffix(".c") + ".o"


def header(number: int, chance: random.Random, constant: int | None = None) -> str:
    """A header: a constant, a structure with a function, and some of the headers before it."""
    lines = [f"#ifndef PART{number}_H", f"#define PART{number}_H"]
    lines += [
        f"#include <{header_name(other)}>" for other in range(number) if chance.random() < 0.15
    ]
    value = chance.randrange(1, 1 << 16)
    lines += [
        f"#define PART{number}_STEP {value if constant is None else constant}u",
        f"#define PART{number}_WORDS {chance.randrange(4, 32)}",
        f"struct part{number} {{ unsigned count, words[PART{number}_WORDS]; }};",
        f"static inline unsigned part{number}_mix(struct part{number} *part, unsigned word)",
        "{",
        f"    part->words[part->count++ % PART{number}_WORDS] ^= word * PART{number}_STEP;",
        f"    word ^= word << {chance.randrange(1, 31)};",
        f"    return word ^ part->words[word % PART{number}_WORDS];",
        "}",
        "#endif",
    ]
    return "\n".join(lines) + "\n"


def statement(chance: random.Random, used: list[int]) -> str:
    """A statement on `a`, `b` and `table`, and on the structures of the headers that are used."""
    part = chance.choice(used)
    number, small = chance.randrange(1 << 20), chance.randrange(2, 31)
    return chance.choice(
        (
            f"a = (a ^ {number}u) + (b >> {small});",
            f"b += table[a % {small}] * PART{part}_STEP;",
            f"a ^= part{part}_mix(&part{part}, b);",
            f"for (unsigned at = 0; at < {small}; at++) table[(a + at) % 64] += at ^ b;",
            f"if (a % {small} == 1) b = ~b; else a -= {number}u;",
            f"switch (b % 4) {{ case 0: a++; break; case 1: b *= {small}u; break; default: a--; }}",
        )
    )


def module(number: int, chance: random.Random) -> str:
    """A C file with some functions, the last of which calls the others."""
    used = sorted(chance.sample(range(HEADERS), chance.randrange(1, 4)))
    lines = [f"#include <{header_name(part)}>" for part in used]
    lines += [f"static struct part{part} part{part};" for part in used]
    for at in range(FUNCTIONS):
        lines += [f"static unsigned step{at}(unsigned a, unsigned b, unsigned table[64])", "{"]
        lines += [f"    {statement(chance, used)}" for _ in range(chance.randrange(20, 36))]
        lines += ["    return a + b;", "}"]
    lines += [f"unsigned module{number}(unsigned a)", "{", "    unsigned table[64] = { 0 };"]
    lines += [
        f"    a = step{at}(a, {chance.randrange(1 << 16)}u, table);" for at in range(FUNCTIONS)
    ]
    return "\n".join([*lines, "    return a;", "}"]) + "\n"


def main_module() -> str:
    lines = ["#include <stdio.h>"]
    lines += [f"unsigned module{number}(unsigned);" for number in range(MODULES)]
    lines += ["int main(void)", "{", "    unsigned sum = 1;"]
    lines += [f"    sum = module{number}(sum);" for number in range(MODULES)]
    return "\n".join([*lines, '    printf("%08x\\n", sum);', "    return 0;", "}"]) + "\n"


def program() -> Program:
    """The program, the same in each call."""
    made = Program()
    for number in range(HEADERS):
        made.files[f"include/{header_name(number)}"] = header(
            number, random.Random(f"{SEED} header {number}")
        )
    for number in range(MODULES):
        made.files[f"src/module{number}.c"] = module(
            number, random.Random(f"{SEED} module {number}")
        )
    made.files["src/main.c"] = main_module()
    made.files["objects"] = "".join(f"{name}\n" for name in made.objects)
    made.files["all.do"] = ALL_DO
    made.files["prog.do"] = PROG_DO
    made.files["default.o.do"] = OBJECT_DO
    edges = [f"build {object_of(source)}: cc {source}\n" for source in made.sources]
    link = f"build prog: link {' '.join(made.objects)} | objects\ndefault prog\n"
    made.files["build.ninja"] = NINJA + "".join(edges) + link
    return made


def appearing(number: int) -> str:
    """Another text of a header: with another constant."""
    return header(number, random.Random(f"{SEED} header {number}"), constant=7)
