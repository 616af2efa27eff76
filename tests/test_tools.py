"""Tests of checks/tools, which lists what tests run, and of checks/install_tools, which installs it: over an apt-get that does as the test says."""
import contextlib
import io
import os
import pathlib
import re
import tempfile
import time
import unittest
import unittest.mock

from tests import wants
from tests.tools import ROOT, tool
from tests.wants import main

# A stand-in for apt-get: it writes its words down, and whether services may start, and makes the program of each package but `none`.
APT = """#!/bin/sh
test -e {room}/policy && policy=none || policy=all
for word in "$@"; do last=$word; done
echo "$policy $*" >> {room}/said
case " $* " in
*" update "*) {update} ;;
*" none "*) echo "E: Unable to locate package none"; exit 100 ;;
*" install "*) {install} ; for word in "$@"; do case $word in pack-*) touch {room}/bin/$word; chmod +x {room}/bin/$word ;; esac; done ;;
esac
"""


class List(unittest.TestCase):
    def test_it_has_each_program_that_a_test_is_skipped_without(self):
        asked = set()
        for path in (ROOT / "tests").glob("*.py"):
            for words in re.findall(r"@needs\((.*)\)$", path.read_text(encoding="utf-8"), re.M):
                asked |= set(re.findall(r'"([^"]+)"', words))
        asked |= {"chromium", "dput", "mount", "rustc"}
        self.assertEqual(asked - set(wants.packages()), {"rt"})
        self.assertEqual(set(wants.packages()) - asked, {"runuser"})


class Installing(unittest.TestCase):
    def setUp(self):
        room = tempfile.TemporaryDirectory()
        self.addCleanup(room.cleanup)
        self.room = pathlib.Path(room.name)
        (self.room / "bin").mkdir()
        self.tool = tool("checks/install_tools")
        self.tool.TOOLS, self.tool.POLICY = self.room / "tools", self.room / "policy"
        self.tool.PATH = f"{self.room}/bin"
        self.tool.QUIET = {**self.tool.QUIET, "PATH": f"{self.room}/bin:/usr/bin:/bin"}

    def apt(self, update=":", install=":"):
        path = self.room / "bin/apt-get"
        path.write_text(APT.format(room=self.room, update=update, install=install))
        path.chmod(0o755)

    def install(self, *packages, is_root=True):
        """Has these packages installed, each of which is wanted for a program of its name. Answers what was printed."""
        (self.room / "tools").write_text("# What is wanted.\n" + "".join(f"{it}: {it}\n" for it in packages))
        printed = io.StringIO()
        with unittest.mock.patch("os.geteuid", lambda: 0 if is_root else 1000), unittest.mock.patch.dict(os.environ, {"PATH": self.tool.QUIET["PATH"]}):
            with contextlib.redirect_stdout(printed):
                self.assertEqual(self.tool.main([]), 0)
        self.assertFalse((self.room / "policy").exists())
        return printed.getvalue().splitlines()

    def said(self):
        """The words of apt-get's calls, without those that are equal each time."""
        lines = (self.room / "said").read_text().splitlines() if (self.room / "said").exists() else []
        return [re.sub(r"-q -y (-o \S+ )+|--no-\S+ ", "", line) for line in lines]

    def test_what_is_there_already(self):
        self.apt()
        self.install("pack-a")
        (self.room / "said").unlink()
        self.assertEqual(self.install("pack-a"), ["tools: all are there"])
        self.assertEqual(self.said(), [])

    def test_what_is_not_there_is_installed_and_not_started(self):
        self.apt()
        self.assertEqual(self.install("pack-a", "pack-b"), ["tools: installed pack-a pack-b"])
        self.assertEqual(self.said(), ["all update", "none install pack-a pack-b"])

    def test_a_package_that_nobody_has_keeps_no_other_away(self):
        self.apt()
        wanted = ["tools: installed pack-a pack-b", "tools: not there: none: E: Unable to locate package none"]
        self.assertEqual(self.install("pack-a", "none", "pack-b"), wanted)
        self.assertEqual(self.said()[1:], [f"none install {it}" for it in ("pack-a none pack-b", "pack-a", "none", "pack-b")])

    def test_lists_that_can_not_be_had(self):
        self.apt(update="echo 'E: no network'; exit 100", install="echo 'E: no package'; exit 100")
        self.assertEqual(self.install("pack-a"), ["tools: nothing was installed", "tools: not there: pack-a: E: no package; E: no network"])

    def test_a_policy_that_is_there_stays(self):
        self.apt()
        with unittest.mock.patch.object(self.tool, "POLICY", self.room / "other"):
            (self.room / "other").write_text("its own\n")
            self.install("pack-a")
            self.assertEqual((self.room / "other").read_text(), "its own\n")

    def test_without_apt_get_or_root_nothing_is_done(self):
        self.assertEqual(self.install("pack-a"), ["tools: nothing was installed", "tools: not there: pack-a: there is no apt-get"])
        self.apt()
        self.assertEqual(self.install("pack-a", is_root=False), ["tools: nothing was installed", "tools: not there: pack-a: only root installs"])
        self.assertEqual(self.said(), [])

    def test_what_does_not_end_is_ended(self):
        self.apt(install="sleep 600 & sleep 600")
        self.tool.MOST, began = 1, time.monotonic()
        [_, line] = self.install("pack-a")
        self.assertRegex(line, "^tools: not there: pack-a: there was no time left$")
        self.assertLess(time.monotonic() - began, 300)


if __name__ == "__main__":
    main()
