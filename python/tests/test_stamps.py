"""Stamps of files: a digest of what is in a file, of its kind, and of its bits of execution."""
import os
import socket
import tempfile
import unittest
import unittest.mock

import beside  # noqa: F401
from digests import digest, link, plain
from redodb.stamps import stamp_of


class InAFolder(unittest.TestCase):
    """A folder with one file, of five bytes and the mode 640."""

    def setUp(self) -> None:
        folder = tempfile.TemporaryDirectory()
        self.addCleanup(folder.cleanup)
        self.top = os.fsencode(folder.name)
        self.file = self.top + b"/file"
        self.link = self.top + b"/link"
        self.write(b"12345")
        os.chmod(self.file, 0o640)
        os.utime(self.file, ns=(0, 1_700_000_000_123_456_789))

    def write(self, content: bytes) -> None:
        with open(self.file, "wb") as file:
            file.write(content)


class Stamps(InAFolder):
    def test_is_a_digest_of_the_content(self) -> None:
        self.assertEqual(stamp_of(self.file), digest(b"file 0\x0012345"))
        for size in (0, 1, (1 << 18) - 1, 1 << 18, (1 << 19) + 1):
            self.write(b"x" * size)
            self.assertEqual(stamp_of(self.file), plain(b"x" * size), size)

    def test_changes_with_each_bit_of_execution(self) -> None:
        for mode, bits in ((0o740, 0o100), (0o650, 0o10), (0o641, 0o1), (0o755, 0o111)):
            os.chmod(self.file, mode)
            self.assertEqual(stamp_of(self.file), plain(b"12345", bits))

    def test_stays_while_content_and_execution_stay(self) -> None:
        before = stamp_of(self.file)
        for mode in (0o600, 0o444, 0o4640, 0o666):
            os.chmod(self.file, mode)
            self.assertEqual(stamp_of(self.file), before, oct(mode))
        os.utime(self.file, ns=(1, 2))
        self.assertEqual(stamp_of(self.file), before)
        os.rename(self.file, self.top + b"/old")
        self.write(b"12345")
        self.assertNotEqual(os.stat(self.file).st_ino, os.stat(self.top + b"/old").st_ino)
        self.assertEqual(stamp_of(self.file), before)

    def test_changes_with_one_byte(self) -> None:
        before = stamp_of(self.file)
        self.write(b"12346")
        os.utime(self.file, ns=(0, 1_700_000_000_123_456_789))
        self.assertNotEqual(stamp_of(self.file), before)

    def test_of_a_folder_is_the_same_whatever_is_in_it(self) -> None:
        self.assertEqual(stamp_of(self.top), "folder")
        os.unlink(self.file)
        self.assertEqual(stamp_of(self.top), "folder")

    def test_of_no_file_is_none(self) -> None:
        for path in (
            self.top + b"/none",
            self.file + b"/below",
            self.top + b"/" + b"x" * 300,
            b"nul\0",
        ):
            self.assertIsNone(stamp_of(path))

    def test_of_a_link_has_its_text_and_the_file(self) -> None:
        for text in (b"file", b"./file"):
            os.symlink(text, self.link)
            end = plain(b"12345")
            self.assertEqual(stamp_of(self.link), link(text, end))
            os.unlink(self.link)
        os.symlink(b"file", self.link)
        os.chmod(self.file, 0o750)
        end = plain(b"12345", 0o110)
        self.assertEqual(stamp_of(self.link), link(b"file", end))

    def test_of_a_link_to_a_folder_or_a_link(self) -> None:
        os.symlink(b".", self.link)
        self.assertEqual(stamp_of(self.link), link(b".", "folder"))
        os.symlink(b"file", self.top + b"/between")
        os.symlink(b"between", self.top + b"/far")
        end = plain(b"12345")
        self.assertEqual(stamp_of(self.top + b"/far"), link(b"between", end))

    def test_of_a_link_to_nothing_is_a_stamp(self) -> None:
        for text in (b"none", b"ring"):
            os.symlink(text, self.top + b"/ring")
            self.assertEqual(stamp_of(self.top + b"/ring"), link(text, ""))
            os.unlink(self.top + b"/ring")

    def test_of_what_is_no_plain_file_has_its_kind_and_device(self) -> None:
        os.mkfifo(self.top + b"/fifo")
        self.assertEqual(stamp_of(self.top + b"/fifo"), digest(b"other 10000 0\0"))
        with socket.socket(socket.AF_UNIX) as listener:
            listener.bind(self.top + b"/socket")
            self.assertEqual(stamp_of(self.top + b"/socket"), digest(b"other 140000 0\0"))
        device = os.stat("/dev/null").st_rdev
        self.assertEqual(stamp_of(b"/dev/null"), digest(b"other 20000 %d\0" % device))
        os.symlink(b"/dev/null", self.link)
        end = digest(b"other 20000 %d\0" % device)
        self.assertEqual(stamp_of(self.link), link(b"/dev/null", end))

    def test_of_a_file_that_cannot_be_read_goes_by_its_status(self) -> None:
        status = os.stat(self.file)
        told = b"unread %d %d %d %d\0" % (
            status.st_size,
            status.st_mtime_ns,
            status.st_ctime_ns,
            status.st_ino,
        )
        for name in ("open", "read"):
            with unittest.mock.patch(f"redodb.stamps.os.{name}", side_effect=PermissionError):
                self.assertEqual(stamp_of(self.file), digest(told))

    def test_of_a_file_that_goes_meanwhile_is_none(self) -> None:
        with unittest.mock.patch("redodb.stamps.os.open", side_effect=FileNotFoundError):
            self.assertIsNone(stamp_of(self.file))

    def test_is_one_of_the_database(self) -> None:
        os.utime(self.file, ns=(0, -1))
        self.assertRegex(stamp_of(self.file) or "", r"\A[!-~]{1,64}\Z")

    def test_of_a_file_that_grows_as_fast_as_it_is_read_come_in_the_end(self) -> None:
        read, calls = os.read, iter(range(100))

        def growing(file: int, size: int) -> bytes:
            next(calls)
            with open(self.file, "ab") as other:
                other.write(b"6" * size)
            return read(file, size)

        with unittest.mock.patch("redodb.stamps.os.read", growing):
            stamp = stamp_of(self.file)
        self.assertRegex(stamp or "", "b2-")


if __name__ == "__main__":
    unittest.main()
