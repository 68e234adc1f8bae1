"""Trees with hostile names, links, modes, owners and times, drawn at random."""
import os
import random
import socket
from collections.abc import Callable

PIECES = (
    *(b"a", b"b", b"c", b".c", b".o", b".x.y", b"default", b".do", b".", b"..", b"x"),
    *(b" ", b"%", b"%41", b"#", b"-", b"=>", b"\n", b"\xff", b"\xc3\xa9", b"~", b"\x7f", b"\x01"),
    *(b"'", b'"', b"\\", b"a" * 100, b" " * 40),
)
MOST_IN_NAME = 255
BLOCK = 1 << 18
SIZES = (0, 0, 1, 10, 300, 5000, BLOCK - 1, BLOCK, BLOCK + 1, 2 * BLOCK + 7)
MODES = (0o644, 0o644, 0o755, 0o600, 0o700, 0o444, 0o111, 0o010, 0, 0o7777)
FOLDER_MODES = (0o755, 0o755, 0o755, 0o755, 0o700, 0o711, 0o744, 0, 0o1777, 0o777)
TIMES = (0, 1, -1_500_000_001, 1_700_000_000_123_456_789, 8_000_000_000_000_000_000)
OWNERS = (0, 65534, 1234)
MOST_PATH = 1500

Maker = Callable[[bytes], None]


class DrawnTree:
    """A tree of drawn files. `paths` are relative to its top, which is first among them."""

    def __init__(self, draw: random.Random, top: bytes, has_owners: bool) -> None:
        self.draw = draw
        self.top = top
        self.paths = [b"."]
        self.folders = [b"."]
        self.targets: list[bytes] = []
        self._has_owners = has_owners
        self._makers: tuple[tuple[int, Maker], ...] = (
            (24, self._file),
            (12, self._folder),
            (12, self._link),
            (3, self._hard_link),
            (1, os.mkfifo),
            (1, self._socket),
            (10, self._do_file),
            (16, self._home),
        )

    def make(self, count: int) -> None:
        """Makes so many files, and then what each may do with them."""
        weights = [weight for weight, _ in self._makers]
        for _ in range(count):
            _, maker = self.draw.choices(self._makers, weights)[0]
            folder = self.draw.choice(self.folders)
            path = os.path.normpath(os.path.join(folder, self.name()))
            whole = os.path.join(self.top, path)
            if len(whole) < MOST_PATH and not os.path.lexists(whole):
                self.paths.append(path)
                maker(path if maker in (self._folder, self._home, self._do_file) else whole)
        for path in self.paths[1:]:
            self._give(os.path.join(self.top, path))
        for path in self.folders[:0:-1]:
            os.chmod(os.path.join(self.top, path), self.draw.choice(FOLDER_MODES))

    def name(self) -> bytes:
        """Returns a name for a file."""
        while True:
            name = b"".join(self.draw.choices(PIECES, k=self.draw.randint(1, 4)))
            if name not in (b".", b"..") and len(name) <= MOST_IN_NAME:
                return name

    def path(self) -> bytes:
        """Returns a path from the top, of a file that may be there."""
        parts = [self.draw.choice(self.paths), self.draw.choice(self.folders), self.name()]
        parts += self.draw.choices((b".", b"..", b"../.."), k=2)
        self.draw.shuffle(parts)
        return b"/".join(parts[: self.draw.randint(1, 4)]) + self.draw.choice((b"", b"", b"/"))

    def target(self) -> bytes:
        """Returns the path from the top of a target that may have a rule."""
        if self.targets and self.draw.random() < 0.6:
            return self.draw.choice(self.targets)
        return os.path.normpath(os.path.join(self.draw.choice(self.folders), self.name()))

    def change(self, path: bytes) -> None:
        """Changes a file, or removes it, or makes it."""
        whole = os.path.join(self.top, path)
        if os.path.isdir(whole) and not os.path.islink(whole):
            return
        if os.path.lexists(whole) and self.draw.random() < 0.5:
            os.utime(whole, ns=(1, 1), follow_symlinks=False)
        else:
            if os.path.lexists(whole):
                os.unlink(whole)
            if self.draw.random() < 0.7:
                self._file(whole)

    def _file(self, path: bytes) -> None:
        with open(path, "wb") as file:
            file.write(self.draw.randbytes(self.draw.choice(SIZES)))
            if self.draw.random() < 0.1:
                file.truncate(3_000_000)
        os.chmod(path, self.draw.choice(MODES))
        if self.draw.random() < 0.3:
            os.utime(path, ns=(0, self.draw.choice(TIMES)))

    def _folder(self, path: bytes) -> None:
        os.mkdir(os.path.join(self.top, path))
        self.folders.append(path)

    def _link(self, path: bytes) -> None:
        some = self.draw.choice(self.paths)
        texts = (
            os.path.relpath(os.path.join(self.top, some), os.path.dirname(path)),
            os.path.join(self.top, some),
            some + b"/",
            os.path.basename(path),
            self.name(),
            b"/dev/null",
            self.top,
        )
        os.symlink(self.draw.choice(texts), path)

    def _hard_link(self, path: bytes) -> None:
        other = os.path.join(self.top, self.draw.choice(self.paths))
        if os.path.isdir(other) or not os.path.lexists(other):
            self._file(path)
        else:
            os.link(other, path, follow_symlinks=False)

    def _socket(self, path: bytes) -> None:
        folder = os.open(os.path.dirname(path), os.O_PATH)
        with socket.socket(socket.AF_UNIX) as one:
            one.bind(b"/proc/self/fd/%d/new" % folder)
        os.rename(b"new", path, src_dir_fd=folder)
        os.close(folder)

    def _do_file(self, path: bytes) -> None:
        """Makes a .do file of a target at this path, there or above, or what is none."""
        whole = os.path.join(self.top, path)
        folder, name = os.path.split(whole)
        while folder != self.top and self.draw.random() < 0.4:
            folder = os.path.dirname(folder)
        _, dot, extension = name.partition(b".")
        names = (name, b"default", b"default" + dot + extension)
        do_file = os.path.join(folder, self.draw.choice(names) + b".do")
        self.targets.append(path)
        if len(os.path.basename(do_file)) > MOST_IN_NAME or os.path.lexists(do_file):
            return
        makers: list[Maker] = [self._file, self._file, self._file, self._link, self._link_to_new]
        makers += [os.mkdir, os.mkfifo]
        self.draw.choice(makers)(do_file)
        self._give(do_file)

    def _link_to_new(self, path: bytes) -> None:
        """Makes a link to a file that is made for it."""
        end = os.path.join(self.top, b"end%d" % len(self.paths))
        self._file(end)
        self._give(end, 0.5)
        os.symlink(end, path)

    def _home(self, path: bytes) -> None:
        """Makes a .redo beside a path, or what is none."""
        home = os.path.join(self.top, os.path.dirname(path), b".redo")
        if os.path.lexists(home):
            return
        makers: list[Maker] = [os.mkdir, os.mkdir, os.mkdir, self._file, self._link]
        self.draw.choice(makers)(home)
        if os.path.isdir(home) and not os.path.islink(home):
            makers = [self._file, self._link, self._hard_link, os.mkfifo, os.mkdir]
            for number, make in enumerate(makers):
                make(home + b"/%d" % number)
                self._give(home + b"/%d" % number)
        self._give(home, 0.7)
        self._give(os.path.dirname(home), 0.2)

    def _give(self, path: bytes, how_often: float = 0.1) -> None:
        """Gives a file to another user, if this is root."""
        if self._has_owners and self.draw.random() < how_often and os.path.lexists(path):
            owner = self.draw.choice(OWNERS)
            os.chown(path, owner, owner, follow_symlinks=False)
