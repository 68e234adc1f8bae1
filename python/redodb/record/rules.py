"""The `.do` files that build what another tool built, by its commands."""

import os
import posixpath
import re
from dataclasses import dataclass, field

from .rule_files import write_all
from .shell import call, quoted, quoted_path

SED = b"redo-depfile.sed"
"""The file beside build.ninja by which scripts read depfiles."""
_SED_BEGIN = rb"""# the names in a depfile, each in a line: sed -f redo-depfile.sed FILE
s/\\$//
s/^.*:[[:blank:]]//
s/^.*:$//
s/^[[:blank:]]*//
s/[[:blank:]]*$//
/^$/d
s/\([^\\]\)[[:blank:]][[:blank:]]*/\1\
/g
h
s/\n.*//
s/\\\([][ #:%*]\)/\1/g
s/\$\$/$/g
"""
_SED_END = b"p\ng\nD\n"
_SPECIAL = re.compile(rb"[][\\.*^$,&]")


@dataclass
class Rule:
    """How a target is built. Its path is relative to the top; the others are, to `folder`."""

    target: bytes
    asks: list[bytes] = field(default_factory=list)
    """What it is made of."""
    first: list[bytes] = field(default_factory=list)
    """Targets without content, by which what is only to be there first is built."""
    along: list[bytes] = field(default_factory=list)
    """Targets without content, each of which has a file that is made along with some of `asks`."""
    before: list[bytes] = field(default_factory=list)
    """Lines of a shell that come before all that is asked for."""
    command: bytes = b""
    """Nothing for a name of other targets."""
    folder: bytes = b"."
    """Where the command runs, relative to the top."""
    outputs: list[bytes] = field(default_factory=list)
    """All that the command writes: the target is the first of these, or stands for them."""
    depfile: bytes = b""
    keeps_depfile: bool = False
    response: tuple[bytes, bytes] | None = None
    """A file that the command reads, and its text."""
    check: list[bytes] = field(default_factory=list)
    """Lines of a shell that come before the end."""
    has_content: bool = True
    """Whether others are out of date once it was built again."""

    @property
    def script(self) -> bytes:
        """The name of its `.do` file."""
        return self.target + b".do"

    def text(self) -> bytes:
        """Return the text of its `.do` file."""
        up = posixpath.relpath(self.folder, posixpath.dirname(self.target) or b".")
        lines = [*([] if up == b"." else [b"cd " + quoted_path(up)]), *self.before]
        asked = [*self.asks, *self.first]
        lines += [call(b"redo-ifchange", asked)] if asked else []
        if self.along:  # built in any case: redo has looked at their files before
            lines += [call(b"redo", self.along), call(b"redo-ifchange", self.along)]
        lines += self._command() if self.command else []
        lines += [*self.check, *self._end()]
        return b"".join(line + b"\n" for line in lines)

    def _command(self) -> list[bytes]:
        """Return the lines that run the command, as the tool does."""
        lines = []
        if self.response:
            name, text = self.response
            lines.append(b"printf %s " + quoted(text) + b" >" + quoted_path(name))
        lines.append(b"/bin/sh -c " + quoted(self.command) + b" >&2")
        if self.depfile:
            lines += self._depfile()
        if self.response:
            lines.append(b"rm -f " + quoted_path(self.response[0]))
        return lines

    def _depfile(self) -> list[bytes]:
        """Return the lines that ask for what the command says that it read."""
        depfile, sed = quoted_path(self.depfile), posixpath.relpath(SED, self.folder)
        return [
            b"if [ -e %b ]; then" % depfile,
            b"    names=$(sed -f %b %b)" % (quoted_path(sed), depfile),
            b"    printf %s \"$names\" | tr '\\n' '\\0' | xargs -0 -r redo-ifchange",
            *([] if self.keeps_depfile else [b"    rm -f " + depfile]),
            b"fi",
        ]

    def _end(self) -> list[bytes]:
        """Return the lines that hand the target over: the command has written its own file."""
        if not self.has_content:
            return [b"redo-stamp </dev/null"]
        is_own = self.outputs in ([], [self.target])
        lines = [] if is_own else [call(b"cat", self.outputs) + b" | redo-stamp"]
        stands_in = bool(self.outputs) and self.target not in self.outputs
        return lines if stands_in else lines + self._handing_over()

    def _handing_over(self) -> list[bytes]:
        """Return the line that makes the file that the command wrote the output of the script."""
        target = posixpath.relpath(self.target, self.folder)
        folder = posixpath.dirname(target) or b"."
        third = b'"$3"' if folder == b"." else quoted_path(folder + b"/") + b'"$3"'
        there = quoted_path(target)
        return [
            b"if [ -e %b ] || [ -L %b ]; then mv -- %b %b; else redo-always; fi"
            % (there, there, there, third)
        ]


def sed_text(top: bytes, leaders: dict[bytes, bytes]) -> bytes:
    """Return the text for sed; for names that have no rule, it has the targets that make them."""
    lines = [
        b"s,^\\(%b/\\)*%b$,%b,\n" % (_literal(top), _literal(path), _literal(leader))
        for path, leader in leaders.items()
    ]
    return _SED_BEGIN + b"".join(lines) + _SED_END


def _literal(text: bytes) -> bytes:
    """Return a text as sed takes it for itself, between commas."""
    return _SPECIAL.sub(lambda found: b"\\" + found[0], text)


def write_rules(top: bytes, rules: list[Rule], leaders: dict[bytes, bytes]) -> None:
    """Write the `.do` files of rules, and what they read. Raises RecordError.

    `leaders` has the targets that make files which have no rule.
    """
    texts = {rule.script: rule.text() for rule in rules}
    if any(rule.depfile for rule in rules):
        texts[SED] = sed_text(os.path.realpath(top), leaders)
    write_all(top, texts)
