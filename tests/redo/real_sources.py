"""The sources of real programs, from Debian's archive: apt fetches and verifies them. Its settings,
its lists and what it fetches are in a folder of the caller, so nothing of the machine changes."""
import os
import re
import subprocess
import tarfile
from dataclasses import dataclass
from pathlib import Path

from trees import Skipped

SECONDS = 120
SETTINGS = Path("/etc/apt")
DO_FILES = {
    "all.do": "redo-ifchange programs\nxargs redo-ifchange <programs\n",
    "default.bin.do": """\
redo-ifchange "$2.o" lib.a libraries
gcc -o "$3" "$2.o" lib.a $(cat libraries)
""",
    "lib.a.do": """\
redo-ifchange objects
xargs redo-ifchange <objects
xargs ar rcD "$3" <objects
""",
    "default.o.do": """\
redo-ifchange "$2.c" flags
gcc $(cat flags) -MD -MF "$3.d" -c "$2.c" -o "$3"
read=$(sed 's/^[^ ]*://; s/\\\\$//' "$3.d")
rm "$3.d"
redo-ifchange $read
""",
}


@dataclass(frozen=True)
class Package:
    """A source package: a library that is made of all C files of a folder but those of programs.

    One of the programs, with the words of `says`, prints the text `said`.
    """

    name: str
    folder: str
    programs: tuple[str, ...]
    flags: str
    libraries: str
    says: tuple[str, ...]
    said: str

    @property
    def files(self) -> dict[str, str]:
        """What is written beside the sources, but for the list of objects."""
        programs = "".join(f"{name}.bin\n" for name in self.programs)
        mine = {"programs": programs, "flags": self.flags, "libraries": self.libraries}
        return DO_FILES | mine


LUA = Package(
    "lua5.4",
    "src",
    ("src/lua", "src/luac"),
    "-O0 -DLUA_USE_LINUX",
    "-lm -ldl",
    ("src/lua.bin", "-e", "print(math.max(3, 4), #'abc')"),
    "4\t3\n",
)
ZLIB = Package(
    "zlib",
    ".",
    ("test/example", "test/minigzip"),
    "-O0 -I. -DHAVE_UNISTD_H -D_LARGEFILE64_SOURCE=1",
    "",
    ("sh", "-c", "echo text | test/minigzip.bin | test/minigzip.bin -d"),
    "text\n",
)


class Archive:
    """What apt fetches into a folder."""

    def __init__(self, folder: Path) -> None:
        self.folder = folder
        for name in ("lists/partial", "cache/archives/partial", "settings"):
            (folder / name).mkdir(parents=True)
        self._write_settings()

    def fetch(self, package: str) -> Path:
        """Fetches a source package; returns the archive of its authors' files."""
        self._run("lists/*Sources*", "update")  # of several archives, one may be enough
        self._run(f"{package}_*.dsc", "source", "--download-only", package)
        found = list(self.folder.glob(f"{package}_*.orig.tar.*[!c]"))  # no .asc
        if len(found) != 1:
            raise Skipped(f"apt has no one archive of {package}: {found}")
        return found[0]

    def _write_settings(self) -> None:
        """Writes the machine's lists of archives, with their sources in place of their programs."""
        places = [SETTINGS / "sources.list", *sorted((SETTINGS / "sources.list.d").glob("*"))]
        for place in places:
            if place.suffix in (".list", ".sources") and place.is_file():
                text = re.sub(r"(?m)^Types:.*$", "Types: deb-src", place.read_text())
                text = re.sub(r"(?m)^deb-src\s.*\n?", "", text) if place.suffix == ".list" else text
                text = re.sub(r"(?m)^deb\s", "deb-src ", text)
                (self.folder / "settings" / place.name).write_text(text)

    def _run(self, wanted: str, *words: str) -> None:
        """Runs apt-get, if what is wanted isn't there. Then it has to be."""
        if list(self.folder.glob(wanted)):
            return
        settings = {
            "Dir::Etc::sourcelist": "/dev/null",
            "Dir::Etc::sourceparts": self.folder / "settings",
            "Dir::State::lists": self.folder / "lists",
            "Dir::Cache": self.folder / "cache",
            "Acquire::Retries": 0,
            "Acquire::http::Timeout": 20,
        }
        options = [word for key, value in settings.items() for word in ("-o", f"{key}={value}")]
        try:
            run = subprocess.run(
                ["apt-get", "-q", *options, *words],
                cwd=self.folder,
                env={**os.environ, "LC_ALL": "C"},
                stdin=subprocess.DEVNULL,
                capture_output=True,
                text=True,
                timeout=SECONDS,
                check=False,
            )
        except (OSError, subprocess.TimeoutExpired) as cause:
            raise Skipped(f"apt-get {words[0]}: {cause}") from None
        if not list(self.folder.glob(wanted)):
            raise Skipped(f"apt-get {words[0]}: {run.stderr.strip()[-300:]}")


def unpacked(archive: Path, folder: Path) -> Path:
    """Unpacks an archive; returns the one folder that is in it."""
    with tarfile.open(archive) as file:
        file.extractall(folder)
    (top,) = folder.iterdir()
    return top
