"""What the server finds when it looks again at files that it found right before."""
import os
import time
from pathlib import Path

import beside  # noqa: F401
from digests import link, plain
from served import ServedTree


class LookingAgain(ServedTree):
    """Each look, also one at files that were found right before, is at the files as they are."""

    def setUp(self) -> None:
        super().setUp()
        self.serve(idle=60)
        self.one = self.client()
        self.write("d/beside", "beside")
        self.write("d/file", "12345")
        self.file = os.path.join(self.top, "d/file")
        self.absent = os.path.join(self.top, "d/absent")
        os.utime(self.file, ns=(0, 1_700_000_000_000_000_000))
        names = "d/file d/beside d d/absent none/absent a%20b"
        self.assertEqual(
            self.one.talk(
                "1 gone d/absent", "2 gone none/absent", "3 gone a%20b", f"4 look {names}", "5 look"
            ),
            ["1 ok", "2 ok", "3 ok", "4 ok 3", "5 ok 0"],
        )

    def noticed(self, name: str, stamp: str) -> None:
        """The next look finds this one difference, and the one after it none."""
        self.assertEqual(
            self.one.talk("6 look", "7 look", f"8 state {name}", "9 look"),
            ["6 ok 1", "7 ok 0", f"8 idle lock - file {stamp}", "9 ok 0"],
        )

    def unnoticed(self) -> None:
        """The next looks find no difference, and tell the database nothing."""
        before = self.log()
        self.assertEqual(
            self.one.talk("6 look", "7 look d/file", "8 look"), ["6 ok 0", "7 ok 0", "8 ok 0"]
        )
        self.assertEqual(self.log(), before)

    def test_passes_over_a_file_that_was_touched(self) -> None:
        for time_ns in (1_700_000_000_000_000_001, 1, 4_000_000_000_000_000_000):
            os.utime(self.file, ns=(0, time_ns))
            self.unnoticed()

    def test_passes_over_another_mode_with_the_same_bits_of_execution(self) -> None:
        for mode in (0o600, 0o444, 0o666):
            os.chmod(self.file, mode)
            self.unnoticed()

    def test_finds_other_bits_of_execution(self) -> None:
        os.chmod(self.file, 0o755)
        self.noticed("d/file", plain(b"12345", 0o111))
        os.chmod(self.file, 0o744)
        self.noticed("d/file", plain(b"12345", 0o100))
        os.chmod(self.file, 0o644)
        self.noticed("d/file", plain(b"12345"))

    def test_finds_one_that_grew_while_its_time_stayed(self) -> None:
        with open(self.file, "ab") as file:
            file.write(b"6")
        os.utime(self.file, ns=(0, 1_700_000_000_000_000_000))
        self.noticed("d/file", plain(b"123456"))

    def test_finds_one_byte_that_was_written_while_its_time_stayed(self) -> None:
        for byte in (b"6", b"7", b"8", b"9"):
            with open(self.file, "r+b") as file:
                file.write(byte)
            os.utime(self.file, ns=(0, 1_700_000_000_000_000_000))
            self.noticed("d/file", plain(byte + b"2345"))

    def test_finds_one_that_was_replaced_by_another_of_its_size_and_time(self) -> None:
        self.replace("54321")
        self.noticed("d/file", plain(b"54321"))

    def test_passes_over_one_that_was_replaced_by_its_like(self) -> None:
        before = os.stat(self.file).st_ino
        self.replace("12345")
        self.assertNotEqual(os.stat(self.file).st_ino, before)
        self.unnoticed()

    def replace(self, content: str) -> None:
        """Move another file over the one that is there, with the same times and mode."""
        self.write("d/new", content)
        os.utime(os.path.join(self.top, "d/new"), ns=(0, 1_700_000_000_000_000_000))
        os.rename(os.path.join(self.top, "d/new"), self.file)

    def test_finds_one_that_goes_and_comes_back(self) -> None:
        os.rename(self.file, self.file + "2")
        self.noticed("d/file", "-")
        os.rename(self.file + "2", self.file)
        self.noticed("d/file", plain(b"12345"))

    def test_passes_over_one_that_went_and_came_back_meanwhile(self) -> None:
        os.rename(self.file, self.file + "2")
        os.rename(self.file + "2", self.file)
        self.unnoticed()

    def test_finds_two_that_changed_together(self) -> None:
        os.unlink(self.file)
        self.write("d/beside", "other")
        self.assertEqual(self.one.talk("6 look", "7 look"), ["6 ok 2", "7 ok 0"])

    def test_finds_one_that_went_when_another_was_touched(self) -> None:
        os.unlink(self.file)
        os.utime(os.path.join(self.top, "d/beside"), ns=(0, 1))
        self.noticed("d/file", "-")

    def test_finds_a_folder_or_a_link_in_place_of_a_file(self) -> None:
        os.unlink(self.file)
        os.mkdir(self.file)
        self.noticed("d/file", "folder")
        os.rmdir(self.file)
        os.symlink(b"beside", self.file)
        self.noticed("d/file", link(b"beside", plain(b"beside")))
        os.unlink(self.file)
        self.write("d/file", "again")
        self.noticed("d/file", plain(b"again"))

    def test_finds_what_appears(self) -> None:
        self.write("d/absent")
        self.noticed("d/absent", plain(b""))
        os.unlink(self.absent)
        self.noticed("d/absent", "-")
        os.mkdir(self.absent)
        self.noticed("d/absent", "folder")
        self.write("a b")
        self.noticed("a%20b", plain(b""))

    def test_finds_a_link_that_leads_nowhere_and_then_somewhere(self) -> None:
        os.symlink(b"leads", self.absent)
        self.noticed("d/absent", link(b"leads", ""))
        self.write("d/leads", "x")
        self.noticed("d/absent", link(b"leads", plain(b"x")))
        os.utime(os.path.join(self.top, "d/leads"), ns=(0, 1))
        self.unnoticed()
        self.write("d/leads", "y")
        self.noticed("d/absent", link(b"leads", plain(b"y")))

    def test_finds_what_is_in_a_folder_that_appears_as_a_link(self) -> None:
        self.write("elsewhere/absent")
        os.symlink(b"elsewhere", os.path.join(self.top, "none"))
        self.noticed("none/absent", plain(b""))
        os.unlink(os.path.join(self.top, "none"))
        self.noticed("none/absent", "-")

    def test_finds_another_file_where_the_folder_is_another_one(self) -> None:
        os.rename(os.path.join(self.top, "d"), os.path.join(self.top, "old"))
        self.write("d/file", "12345")
        self.noticed("d/beside", "-")
        os.rename(os.path.join(self.top, "d"), os.path.join(self.top, "older"))
        self.write("d/file", "54321")
        self.noticed("d/file", plain(b"54321"))

    def test_tells_again_what_a_client_said_otherwise(self) -> None:
        for said in ("folder", "5-1700000000000000000-1-100644", plain(b"54321"), "b2-", "x"):
            self.assertEqual(self.one.talk(f"6 file d/file {said}"), ["6 ok"])
            self.noticed("d/file", plain(b"12345"))
        self.assertEqual(self.one.talk("6 gone d/file"), ["6 ok"])
        self.noticed("d/file", plain(b"12345"))


class Many(ServedTree):
    """A look at many files that were found right before reads none of them."""

    COUNT = 2000
    BYTES = 4096

    def setUp(self) -> None:
        super().setUp()
        self.names = [f"d{number // 100}/f{number}" for number in range(self.COUNT)]
        for name in self.names:
            self.write(name, "x" * self.BYTES)
        self.serve(idle=60)
        self.one = self.client()
        names = " ".join(self.names)
        self.assertEqual(self.one.talk("1 look " + names), [f"1 ok {self.COUNT}"])
        self.assert_reads_little()

    def look(self) -> tuple[str, float, int]:
        """Return how many files differ, in how much time, and how many bytes the server read."""
        bytes_before, before = self.bytes_read(), time.perf_counter()
        answer = self.one.talk("2 look")[0].removeprefix("2 ok ")
        return answer, time.perf_counter() - before, self.bytes_read() - bytes_before

    def bytes_read(self) -> int:
        numbers = Path(f"/proc/{self.servers[-1].pid}/io").read_text().split()
        return int(numbers[numbers.index("rchar:") + 1])

    def assert_reads_little(self) -> None:
        """Looks find no difference, and once time has passed read nothing either."""
        self.assertEqual(self.look()[0], "0")
        time.sleep(0.05)
        self.assertEqual(self.look()[0], "0")
        count, seconds, read = self.look()
        self.assertEqual(count, "0")
        self.assertLess(seconds, 1)
        self.assertLess(read, 10 * self.BYTES)

    def test_is_quick(self) -> None:
        self.assert_reads_little()

    def test_reads_what_was_touched_once(self) -> None:
        touched = self.names[::7]
        for name in touched:
            os.utime(Path(self.top, name), (1, 1))
        count, seconds, read = self.look()
        self.assertEqual(count, "0")
        self.assertLess(seconds, 1)
        self.assertGreaterEqual(read, len(touched) * self.BYTES)
        self.assert_reads_little()

    def test_reads_nothing_after_a_restart(self) -> None:
        self.one.close()
        self.end_servers()
        self.serve(idle=60)
        self.one = self.client()
        count, _, read = self.look()
        self.assertEqual(count, "0")
        self.assertLess(read, 10 * self.BYTES)

    def test_finds_all_that_changed(self) -> None:
        changed = self.names[::7]
        for name in changed:
            self.write(name, "changed")
        self.assertEqual(self.look()[0], str(len(changed)))
        self.assert_reads_little()
