"""The files of a release, as ./install puts them, and as they are linked for other systems."""
import os
import re
import shutil
import zipfile
from collections.abc import Iterable
from pathlib import Path

from machine import TOP, ReleaseError, output
from state import State, files_of_git, kit_folder

PROGRAMS = {"redodb": "redodb_cli", "redodb-live": "redodb_live_cli"}
LIBEXEC = "lib/redodb/libexec"
LIBRARY = "lib/libredodb.so.0"
PYTHON = "lib/redodb/python"
WORDS = ["redodb-record.1", "redodb-picture.1"]
"""The pages of what only the Python package has."""
OLDEST = (2, 31)
"""What the tarball runs with: no file of it wants a newer library of C."""
PYTHON_OF_DEBIAN = "/usr/bin/python3"
BUILDS = "from flit_core import buildapi as b; b.build_wheel('{to}'); b.build_sdist('{to}')"


def copy_sources(to: Path) -> None:
    """Copies the files that git knows."""
    for name in files_of_git():
        (to / name).parent.mkdir(parents=True, exist_ok=True)
        shutil.copyfile(TOP / name, to / name, follow_symlinks=False)


def install(to: Path) -> None:
    """Has ./install put there what is proved and built. Raises ReleaseError if something isn't."""
    output([TOP / "install", to])
    if not (to / LIBRARY).exists():
        raise ReleaseError("libredodb: not made yet: ./prove --library proves and makes it")
    for cache in list(to.rglob("__pycache__")):
        shutil.rmtree(cache)


def built(crate: str) -> Path:
    return TOP / "crates" / crate / "out" / crate


def link_words(crate: str, to: Path) -> list[str]:
    """The words after the linker: what a program is linked of, by `rt` and here."""
    kit = kit_folder()
    return ["-o", f"{to}", f"{built(crate)}.o", f"{kit}/c/libos_c.a", f"{kit}/c/liblibc_c.a"]


def link_statically(stage: Path, work: Path) -> None:
    """Puts proved programs there that need no library of C: of the same objects, as is checked."""
    kit = kit_folder()
    linker = [str(kit / "bin/rattle-link"), "--target", "x86_64-unknown-linux-gnu"]
    for name, crate in PROGRAMS.items():
        if not Path(f"{built(crate)}.o").exists():
            raise ReleaseError(f"{name}: its object isn't there: ./prove --passed builds it")
        again = work / crate
        output([*linker, "--toolchain", str(kit / "toolchain"), *link_words(crate, again)])
        if again.read_bytes() != built(crate).read_bytes():
            raise ReleaseError(f"{name}: its object file is another proof's: ./prove builds both")
        output(["cc", "-static", "-s", *link_words(crate, stage / LIBEXEC / name)])


def wanted(file: Path) -> tuple[int, ...]:
    """The newest version of the library of C that a file wants; (0,) if it wants none."""
    found = re.findall(r"GLIBC_([0-9.]+)", output(["objdump", "-p", file]))
    return max((tuple(map(int, version.split("."))) for version in found), default=(0,))


def programs(stage: Path) -> list[Path]:
    """The compiled files, sorted."""
    return sorted(path for path in stage.rglob("*") if is_compiled(path))


def is_compiled(path: Path) -> bool:
    if path.is_symlink() or not path.is_file():
        return False
    with path.open("rb") as file:
        return file.read(4) == b"\x7fELF"


def check_oldest(stage: Path) -> None:
    """Raises ReleaseError if a file wants a newer library of C than OLDEST."""
    for file in programs(stage):
        if wanted(file) > OLDEST:
            version = ".".join(map(str, wanted(file)))
            raise ReleaseError(f"{file.name}: it wants glibc {version}, and may want 2.31")


def check_paths(stage: Path, others: Iterable[Path]) -> None:
    """Raises ReleaseError if a file names a folder of this machine."""
    folders = [os.fsencode(folder) + b"/" for folder in {TOP, *others}]
    for file in sorted(path for path in stage.rglob("*") if path.is_file()):
        text = file.read_bytes()
        for folder in folders:
            if folder in text:
                raise ReleaseError(f"{file.name}: it names the folder {os.fsdecode(folder)}")


def build_python(sources: Path, to: Path, environment: dict[str, str]) -> None:
    """Builds the wheel and the sdist of the sources there."""
    folder = sources / "python"
    shutil.copyfile(sources / "LICENSE", folder / "LICENSE")
    output([PYTHON_OF_DEBIAN, "-c", BUILDS.format(to=to)], folder, environment)


def unpack_wheel(wheels: Path, to: Path) -> None:
    """Unpacks the wheel, without what is about installing it by pip."""
    (wheel,) = wheels.glob("*.whl")
    with zipfile.ZipFile(wheel) as archive:
        archive.extractall(to)
    (about,) = to.glob("*.dist-info")
    for name in ("RECORD", "LICENSE"):
        (about / name).unlink(missing_ok=True)


def tar(stage: Path, to: Path, state: State) -> None:
    """Packs a folder, with the same bytes each time."""
    words = ["tar", "--sort=name", "--format=gnu", "--owner=0", "--group=0", "--numeric-owner"]
    words += [f"--mtime=@{state.seconds}", "--mode=u=rwX,go=rX", "--use-compress-program=gzip -9n"]
    output([*words, "-cf", str(to), stage.name], stage.parent)
