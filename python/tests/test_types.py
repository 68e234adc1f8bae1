"""The types of the package and of its tests."""

import os
import shutil
import subprocess
import tempfile
import unittest

import beside


class Types(unittest.TestCase):
    @unittest.skipUnless(shutil.which("mypy"), "wants mypy")
    def test_mypy_has_nothing_to_say(self) -> None:
        with tempfile.TemporaryDirectory() as cache:
            run = subprocess.run(
                ["mypy", "--strict", "--cache-dir", cache, "redodb", "tests"],
                cwd=beside.FOLDER,
                env={**os.environ, "MYPYPATH": f"{beside.FOLDER}:{beside.FOLDER}/tests"},
                capture_output=True,
                text=True,
                check=False,
            )
        self.assertEqual((run.returncode, run.stderr), (0, ""), run.stdout)


if __name__ == "__main__":
    unittest.main()
