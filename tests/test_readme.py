"""Tests of README.md with the built program: a shell runs the lines of its session as they are, but for the port and for the folders of apt. If
dpkg-deb or apt-get is not there, the test says that it was skipped. The program is that of program.py."""
import pathlib
import re
import shlex
import textwrap

from tests import snippets
from tests.ports import free_port
from tests.program import PROGRAM
from tests.snippets import ROOT, built
from tests.test_using_program import CHANGES, HELLO
from tests.wants import main, needs, needs_file


def session():
    """The lines of the session of README: up to the one that serves, that line, its list for apt, and the last line."""
    text = (ROOT / "README.md").read_text(encoding="utf-8").partition("\n## A session")[2].partition("\n## ")[0]
    lines = textwrap.dedent("\n".join(it for it in text.split("\n") if it.startswith("    "))).split("\n")
    at = next(number for number, line in enumerate(lines) if line.startswith("archive serve"))
    return lines[:at], *lines[at:]


@needs_file(PROGRAM)
class Readme(snippets.Case):
    @needs("dpkg-deb", "apt-get")
    def test_its_session(self):
        """Each command prints what its comment says, and apt finds the package."""
        before, serves, lists, installs = session()
        built(self.room.home, HELLO)
        names = self.shell("\n".join([*before, "cat files"])).split("\n")
        files = [pathlib.Path(it).name for it in names if it.startswith("ready/")]
        self.assertEqual(names, [*(f"new {it}" for it in files), f"accepted {CHANGES}", *(f"ready/{it}" for it in files), ""])
        self.assertEqual([re.findall(r" # (.*)", it) for it in before[-2:]], [["new NAME, for each file"], [f"accepted {CHANGES}"]])
        port = free_port()
        line = snippets.changed(serves.partition(" &")[0], {"127.0.0.1:8080": f"127.0.0.1:{port}"})
        self.room.start(["sh", "-ec", f"cd box; exec {line}"], port)
        word, text, into, _ = shlex.split(lists)
        self.assertEqual((word, into), ("echo", ">"))
        self.room.apt(snippets.changed(text, {"127.0.0.1:8080": f"127.0.0.1:{port}"}) + "\n")
        self.assertEqual(installs.partition("  ")[0], "apt update && apt install hello/box")
        self.shell("apt-get update")
        self.assertRegex(self.shell("apt-get -s install hello/box"), r"\nInst hello \(1\.0-1 [^\n]*\[amd64\]\)\n")


if __name__ == "__main__":
    main()
