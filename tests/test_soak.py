"""A part of the million commands of soak.py, with its kills, and what it says of an archive that does something else. The program is
that of program.py."""
import os
import re
import subprocess
import sys
import tempfile
import unittest

from tests.program import PROGRAM, ROOT
from tests.wants import main, needs_file

# The number of commands that are given, and the number if something else is done, which has to be found.
COMMANDS, FEW = 3000, 1000

# A program that first does something else for some of its lines. $list is the last word of the line, $folder a folder of its own.
SHIM = """#!/bin/sh
folder={folder}
for list; do :; done
case "$*" in
{lines})
{deed}
;;
esac
exec '{program}' "$@"
"""

# Another body in place of the first .deb of a list, under its name: so its delivery is lost, and the answer is the same.
LOST = r"""name=$(sed -n 's|^put .*/\([^/]*_[^/]*\.deb\)$|\1|p' "$list" | head -n 1)
if [ "$name" ]; then
    echo lost > "$folder/$name"
    sed -i "0,\|/$name\$|s|^put .*/$name\$|put $folder/$name|" "$list"
fi"""

# A run of the queue before `serve` begins, and a cleaning long after it.
RUN = "'{program}' run --db \"$3\" --at \"$5\" > /dev/null"
CLEAN = "'{program}' clean --db \"$3\" --at 4000000000 > /dev/null"


@needs_file(PROGRAM)
class Soak(unittest.TestCase):
    def setUp(self):
        room = tempfile.TemporaryDirectory()
        self.addCleanup(room.cleanup)
        self.folder = room.name

    def soak(self, *words, program=PROGRAM, folder="soak"):
        """Runs it in a folder. Answers the status, and what it printed."""
        line = [sys.executable, "-m", "tests.soak", os.path.abspath(program), "--folder", f"{self.folder}/{folder}", *words]
        ran = subprocess.run(line, cwd=ROOT, capture_output=True, text=True, check=False, timeout=1800)
        self.assertEqual(ran.stderr, "")
        return ran.returncode, ran.stdout

    def test_some_thousand_commands(self):
        status, printed = self.soak("--commands", str(COMMANDS), "--each", str(COMMANDS // 2))
        self.assertEqual(status, 0, printed)
        self.assertIn(f"\ncommands: {COMMANDS:,}\n", printed)
        print("; ".join(it for it in printed.splitlines() if re.match(r"kills|killed|3,000", it)) + ".")

    def test_it_goes_on_where_it_was_stopped(self):
        parts = [self.soak("--commands", str(count), "--each", "100", folder="parts") for count in (200, 400)]
        _, whole = self.soak("--commands", "400", "--each", "100", folder="whole")
        self.assertEqual(re.findall(r"^(\d+) commands, ", parts[1][1], re.M), ["300", "400"])
        told = [re.search(r"^commands: 400\n(?: .*\n)+", it, re.M) for it in (parts[1][1], whole)]
        self.assertTrue(told[0] and told[1] and told[0][0] == told[1][0], told)

    def found(self, lines, deed):
        """What it says of a program that first does something else for some of its lines."""
        program = f"{self.folder}/archive"
        with open(program, "w", encoding="ascii") as it:
            it.write(SHIM.format(folder=self.folder, lines=lines, deed=deed.replace("{program}", PROGRAM), program=PROGRAM))
        os.chmod(program, 0o755)
        status, printed = self.soak("--commands", str(FEW), "--each", str(FEW), program=program)
        self.assertEqual(status, 1, printed)
        self.assertRegex(printed, rf"\Asoak: --seed 1 --each {FEW}, behind [\d,]+ commands: ")

    def test_a_file_that_is_lost_is_found(self):
        self.found("batch*killed.db.list", LOST)

    def test_a_file_that_both_lose_is_found(self):
        self.found("batch*.db.list", LOST)

    def test_a_run_more_is_found(self):
        self.found("serve*killed.db*", RUN)

    def test_a_cleaning_more_is_found(self):
        self.found("serve*killed.db*", CLEAN)


if __name__ == "__main__":
    main()
