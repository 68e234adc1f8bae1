"""A bare Debian in a folder, and commands in it, each in namespaces of its own."""
import os
import re
import shutil
import subprocess
from dataclasses import dataclass
from pathlib import Path

SOURCES = Path("/etc/apt/sources.list.d/debian.sources")
MIRROR = "http://deb.debian.org/debian"
FILES = "/tmp"
"""Where the files of a command lie."""
HOME = "/root"
# a command that hasn't ended after this many seconds doesn't end
SECONDS = 900
BEGIN = f"""\
mount --bind "$4" "$1/var/cache/apt/archives" && mount -t proc proc "$1/proc" || exit 99
mount -t tmpfs tmpfs "$1{FILES}" && cp -r "$2/." "$1{FILES}/" || exit 99
exec chroot "$1" /usr/bin/env -i HOME={HOME} LC_ALL=C.UTF-8 DEBIAN_FRONTEND=noninteractive \\
    PATH=/usr/sbin:/usr/bin:/sbin:/bin sh -euc "$3"
"""


def mirror() -> str:
    """The mirror of Debian that this machine takes its packages from."""
    text = SOURCES.read_text() if SOURCES.exists() else ""
    found = re.search(r"^URIs: (\S+)", text, re.M)
    return found[1] if found else MIRROR


def lacks() -> str:
    """What is missing here for a bare Debian; empty if nothing is."""
    if os.geteuid() != 0:
        return "it wants root"
    for program in ("debootstrap", "unshare", "chroot"):
        if shutil.which(program) is None:
            return f"no {program}"
    words = ["unshare", "--mount", "--pid", "--net", "--fork"]
    words += ["mount", "-t", "tmpfs", "tmpfs", "/mnt"]
    run = subprocess.run(words, capture_output=True, check=False)
    return "no mounts are allowed" if run.returncode else ""


@dataclass(frozen=True)
class Bare:
    """A Debian of the packages that it can't be without."""

    folder: Path
    files: Path
    """What lies in FILES of each command."""
    debs: Path
    """Where the packages are kept that were downloaded."""

    def made(self, suite: str) -> str:
        """Makes it; the line that says why it can't be made."""
        (self.debs / "partial").mkdir(parents=True, exist_ok=True)
        words = ["debootstrap", "--variant=minbase", f"--cache-dir={self.debs.absolute()}", suite]
        words += [str(self.folder), mirror()]
        run = subprocess.run(words, capture_output=True, text=True, check=False, timeout=SECONDS)
        if run.returncode:
            return (run.stdout + run.stderr).strip().splitlines()[-1]
        if Path("/etc/resolv.conf").exists():
            shutil.copyfile("/etc/resolv.conf", self.folder / "etc/resolv.conf")
        (self.folder / "etc/apt/apt.conf.d/fast").write_text('Dpkg::Options "--force-unsafe-io";\n')
        return ""

    def said(self, command: str, network: bool = False) -> tuple[int, str]:
        """The status of a command of sh, as root, and what it prints."""
        words = ["unshare", "--mount", "--pid", "--fork", *["--net"] * (not network)]
        words += ["sh", "-c", BEGIN, "sh", str(self.folder), str(self.files), command]
        words.append(str(self.debs))
        run = subprocess.run(
            words,
            stdin=subprocess.DEVNULL,
            stdout=subprocess.PIPE,
            stderr=subprocess.STDOUT,
            text=True,
            errors="replace",
            check=False,
            timeout=SECONDS,
        )
        return run.returncode, run.stdout

    def paths(self) -> set[str]:
        """All that is there, but for what the system notes of its packages."""
        found: set[str] = set()
        for folder, folders, names in os.walk(self.folder):
            here = Path("/", Path(folder).relative_to(self.folder))
            if here in NOTES:
                folders.clear()
                continue
            found.update(str(here / name) for name in (*folders, *names))
        return found


NOTES = {Path(name) for name in ("/proc", FILES, "/var/log", "/var/cache", "/var/lib/apt")}
