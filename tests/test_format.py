"""Tests of checks/format, on a small repository. If there is no rt, they say that they were skipped."""
import pathlib
import shutil
import subprocess
import tempfile
import unittest

from tests.tools import ROOT
from tests.wants import main, needs

LAID_OUT, NOT = "fn one() -> u8 {\n    1\n}\n", "fn one()  -> u8 {\n  1\n}\n"


@needs("rt")
class Format(unittest.TestCase):
    def setUp(self):
        room = tempfile.TemporaryDirectory()
        self.addCleanup(room.cleanup)
        self.root = pathlib.Path(room.name)
        (self.root / "checks").mkdir()
        shutil.copy(ROOT / "checks/format", self.root / "checks")
        self.write("low", LAID_OUT)

    def write(self, crate, text):
        """Writes the one source of a crate, and answers its path."""
        path = self.root / "crates" / crate / "src/lib.rt"
        path.parent.mkdir(parents=True)
        path.write_text(text, encoding="utf-8")
        return path

    def told(self, *crates):
        """The status, and all that is printed."""
        ran = subprocess.run([self.root / "checks/format", *crates], capture_output=True, text=True, check=False)
        return ran.returncode, ran.stdout + ran.stderr

    def test_a_file_that_is_not_laid_out_is_named(self):
        self.assertEqual(self.told(), (0, ""))
        path = self.write("high", NOT)
        self.assertEqual(self.told(), (1, "crates/high/src/lib.rt is not in the layout\n"))
        self.assertEqual(self.told("low"), (0, ""))
        self.assertEqual(path.read_text(encoding="utf-8"), NOT)

    def test_a_crate_that_is_not_there_is_told(self):
        self.assertEqual(self.told("nothing"), (2, "format: there is no such crate\n"))


if __name__ == "__main__":
    main()
