"""Tests of tests/run.py: how the gate is begun with which kit, by an rt that writes down what it is asked; what is printed of tools while they run;
and what the last lines are."""
import contextlib
import io
import os
import pathlib
import re
import subprocess
import sys
import tempfile
import unittest
import unittest.mock

from tests import run
from tests.wants import main

RT = """#!/bin/sh
test "$1" = --version && echo "rattle-kit-{kit} logic 0" && exit
echo "$* RT_JOBS=$RT_JOBS" >> {room}/asked
test $# = 1 && echo "7 passed, {failed} failed" && exit {failed}
exit 0
"""
# The beginning of a tool that waits until a file is there, but no longer than a minute.
WAITS = """
import os, sys, time

end = time.monotonic() + 60
while not os.path.exists({!r}) and time.monotonic() < end:
    time.sleep(0.01)
"""
# A module whose tests fail: in a part, below another exception, with a long line, and with a list that has another element.
FAILING = """
import sys, unittest


class Some(unittest.TestCase):
    def test_a(self):
        \"\"\"It has a line of its own.\"\"\"
        for number in (1, 2):
            with self.subTest(number):
                self.assertEqual(number, 1, "it was\\nthe second")

    def test_b(self):
        try:
            self.no_value()
        except KeyError:
            raise ValueError("one line\\n  one that is indented\\nanother line")

    def no_value(self):
        return {}["none"]

    def test_c(self):
        self.fail("a" * 900 + "b")

    def test_d(self):
        self.assertEqual([1, 2], [1, 3])


unittest.main(argv=["some", *sys.argv[1:]])
"""
OF_FAILING = [
    "    ERROR: test_b, line 16",
    "        ValueError: one line",
    "        another line",
    "    FAIL: test_a [2], line 10",
    "        AssertionError: 2 != 1 : it was",
    "        the second",
    "    FAIL: test_c, line 22",
    f"        AssertionError: {'a' * 180}..{'a' * 97}b",
    "    FAIL: test_d, line 25",
    "        AssertionError: Lists differ: [1, 2] != [1, 3]",
    "        2",
    "        - [1, 2]",
    "    and 1 more",
]
WORK = r"\AIt took [\d,]+ seconds of processor, on \d+ processors\. One adds 5,000,000 numbers in \d+\.\d\d seconds\.\Z"


class Gate(unittest.TestCase):
    def setUp(self):
        room = tempfile.TemporaryDirectory()
        self.addCleanup(room.cleanup)
        self.room = pathlib.Path(room.name)
        (self.room / "crates").mkdir()
        for name in ("HANDLES", "crates.txt"):
            (self.room / name).touch()
        changed = unittest.mock.patch.multiple(run, ROOT=room.name, SECONDS_TO_BEGIN=0)
        changed.start()
        self.addCleanup(changed.stop)

    def asked(self, kit="13f", failed=0, ci=None):
        """Runs the gate. Answers how much passed and failed, and what rt was asked."""
        (self.room / "rt").write_text(RT.format(kit=kit, room=self.room, failed=failed))
        (self.room / "rt").chmod(0o755)
        (self.room / "asked").write_text("")
        changes = {"PATH": f"{self.room}:/usr/bin:/bin", **({"CI": ci} if ci else {})}
        printed = io.StringIO()
        with unittest.mock.patch.dict(os.environ, changes), contextlib.redirect_stdout(printed):
            for name in {"RT_JOBS", "CI"} - set(changes):
                os.environ.pop(name, None)
            passed, count, took, work = run.gate()
        self.assertRegex(took, r"\AThe gate took \d+\.\d minutes\.\Z")
        self.assertRegex(work, WORK)
        self.assertEqual(printed.getvalue().splitlines(), [f"7 passed, {failed} failed", took, work])
        return (passed, count), (self.room / "asked").read_text().splitlines()

    def words(self, **words):
        return [" ".join(it.split()[:-1]) for it in self.asked(**words)[1]]

    def test_the_head_start_is_of_a_kit_that_keeps_it(self):
        before = [f"ci {' '.join(run.CHAIN)}", f"ci {' '.join(run.BESIDE)}"]
        with unittest.mock.patch.object(run, "HAS_HEAD_START", True), unittest.mock.patch.object(run, "free_memory", lambda: 1 << 40):
            for kit in ("13f", "13g", "14", "14a", "20b"):
                found = self.words(kit=kit)
                self.assertEqual((sorted(found[:-1]), found[-1]), (sorted(before), "ci"), kit)
            for kit in ("13b", "13e", "13", "12z", "some"):
                self.assertEqual(self.words(kit=kit), ["ci"], kit)
            self.assertEqual(self.words(ci="true"), ["ci"])
        with unittest.mock.patch.object(run, "HAS_HEAD_START", False):
            self.assertEqual(self.words(), ["ci"])

    def test_jobs_are_given_if_there_is_memory(self):
        jobs = len(os.sched_getaffinity(0))
        for has_jobs, memory, wanted in ((True, 1 << 40, f"ci RT_JOBS={jobs}"), (True, 1 << 30, "ci RT_JOBS="), (False, 1 << 40, "ci RT_JOBS=")):
            with unittest.mock.patch.object(run, "HAS_JOBS", has_jobs), unittest.mock.patch.object(run, "free_memory", lambda: memory):
                self.assertEqual(self.asked(ci="true")[1], [wanted])

    def test_what_it_comes_to(self):
        self.assertEqual([self.asked(ci="true", failed=it)[0] for it in (0, 1)], [(7, 0), (7, 1)])
        with unittest.mock.patch.dict(os.environ, {"PATH": str(self.room / "none")}), contextlib.redirect_stdout(io.StringIO()):
            self.assertEqual(run.gate(), (0, 1))

    def test_the_work_is_that_of_programs_that_ran(self):
        """Seconds of processor that a program of a program took count."""
        spent = run.seconds_of_children()
        code = "import time; began = time.process_time()\nwhile time.process_time() < began + 0.3: pass"
        subprocess.run(["sh", "-c", '"$0" -c "$1"; true', sys.executable, code], check=True)
        self.assertGreater(run.seconds_of_children() - spent, 0.3)

    def test_what_failed_is_said_again(self):
        """Of what the gate prints, the lines that say what failed."""
        faults = [
            "rt: desk NOT PROVED",
            "rt: must-fail sums/entry_257.edit: NOT REFUSED: the crate is still proved with this edit",
            "rt: must-fail sums/entry_257.edit: NOT TRIED: its check was killed, most likely for memory",
            "rt: test_rows: the program had not ended after 120 seconds",
            "rt: test_rows (built by Rattle's own compiler; the LLVM build passed): the program ended with status 1, and not 0; it said: x",
            "rt: test_calls: its tests FAILED",
            "rt: FAILED: desk sums/entry_257.edit",
        ]
        others = ["rt: desk proved", "rt: must-fail sums/entry_257.edit: refused, as it must be", "fn desk::routes::Desk::new: proved"]
        (self.room / "rt").write_text("#!/bin/sh\ncat lines\necho '5 passed, 2 failed'\nexit 1\n")
        (self.room / "rt").chmod(0o755)
        (self.room / "lines").write_text("".join(f"{it}\n" for it in [*others, *faults, *others]))
        changes = {"PATH": f"{self.room}:/usr/bin:/bin", "CI": "true"}
        with unittest.mock.patch.dict(os.environ, changes), contextlib.redirect_stdout(io.StringIO()):
            passed, count, _, work, *said = run.gate()
        self.assertRegex(work, WORK)
        self.assertEqual((passed, count, said), (5, 2, ["The minute at which each crate was proved: desk 0, desk 0.", *(f"Of the gate: {it}" for it in faults)]))


class Lines(unittest.TestCase):
    def test_the_last_lines(self):
        def part():
            with open(os.environ["SKIPPED"], "a", encoding="utf-8") as file:
                file.write("tests.a One.b\tthere is no strace\ntests.c Two.d\tthere is no gpg\ntests.c Two.e\tthere is no strace\n")
            return 5, 0

        printed = io.StringIO()
        with contextlib.redirect_stdout(printed), unittest.mock.patch.dict(os.environ):
            status = run.run_all(part, lambda: (1, 2, "The gate took 2.5 minutes."), lambda: (0, 0))
        wanted = ["Skipped, since there is no strace:", "    tests.a One.b", "    tests.c Two.e", "Skipped, since there is no gpg:", "    tests.c Two.d"]
        wanted = [*wanted, "The gate took 2.5 minutes.", "3 skipped", "6 passed, 2 failed"]
        self.assertEqual((status, printed.getvalue().splitlines()), (1, wanted))
        self.assertEqual(run.told_of_skipped([]), ["0 skipped"])

    def test_which_tools_failed(self):
        ends = {"good": (0, ""), "bad --part": (1, "said\n"), "tests.none": (-9, "")}
        printed = io.StringIO()
        with unittest.mock.patch.object(run, "ran", ends.get), contextlib.redirect_stdout(printed):
            lines = ["Failed: bad --part", "    said", "Failed: tests.none", "    ended by signal 9"]
            self.assertEqual(run.each_of(["good", "bad --part", "good", "tests.none"])(), (2, 2, *lines))
            self.assertEqual(run.each_of(["good"])(), (1, 0))
        self.assertEqual(printed.getvalue().splitlines(), ["== good", "== bad --part", "== good", "== tests.none", "== good"])

    def test_what_failed_in_a_tool(self):
        """Of tests their names and exceptions, and else the last lines that are not empty. What is in brackets after a name differs between versions
        of Python."""
        with tempfile.TemporaryDirectory() as room:
            failing, plain = f"{room}/failing", f"{room}/plain"
            pathlib.Path(failing).write_text(FAILING)
            pathlib.Path(plain).write_text("print(*range(9), '', 'x' * 301, sep='\\n')\nraise SystemExit('its end')")
            with contextlib.redirect_stdout(io.StringIO()):
                for together in (1, 2):
                    passed, failed, first, *more = run.each_of([failing], together)()
                    self.assertEqual((passed, failed, first), (0, 1, f"Failed: {failing}"))
                    self.assertEqual([re.sub(r" \(__main__\.Some\S*\)", "", it) for it in more], OF_FAILING)
                last = ["    6", "    7", "    8", f"    {'x' * 200}..{'x' * 98}", "    its end"]
                self.assertEqual(run.each_of([plain], 2)(), (0, 1, f"Failed: {plain}", *last))

    def test_lines_on_what_failed_are_few(self):
        """Twelve on one tool. Several share them, and each has three."""
        faults = [str(it) for it in range(13)]
        for count, most in ((1, 12), (2, 6), (3, 4), (4, 3), (9, 3)):
            wanted = ["Failed: one", *(f"    {it}" for it in faults[:most]), f"    and {13 - most} more"]
            self.assertEqual([*run.told_of_failed([("one", faults)] * count)], wanted * count)
        self.assertEqual([*run.told_of_failed([("one", faults[:12])])], ["Failed: one", *(f"    {it}" for it in faults[:12])])
        self.assertEqual([*run.told_of_failed([])], [])

    def test_what_runs_alone_is_printed_as_it_comes(self):
        """The tool waits until its first line is printed here. It then prints bytes that are no text."""
        with tempfile.TemporaryDirectory() as room:
            tool, begun = f"{room}/tool", pathlib.Path(room, "begun")
            pathlib.Path(tool).write_text(f"print('first', flush=True)\n{WAITS.format(str(begun))}sys.stdout.buffer.write(b'\\xff\\r50%\\nlast')\nsys.exit(not os.path.exists({str(begun)!r}))\n")

            class Printed(io.StringIO):
                def write(self, text):
                    if text == "first\n":
                        begun.touch()
                    return super().write(text)

            with contextlib.redirect_stdout(Printed()) as printed:
                self.assertEqual(run.each_of([tool])(), (1, 0))
        self.assertEqual(printed.getvalue(), f"== {tool}\nfirst\n\ufffd\r50%\nlast")

    def test_what_runs_together_is_printed_in_order(self):
        """The first tool ends last: it waits for the last one."""
        with tempfile.TemporaryDirectory() as room:
            begun = f"{room}/begun"
            for name, first, status in (("slow", WAITS.format(begun), 0), ("bad", "", 3), ("good", f"open({begun!r}, 'w').close()\n", 0)):
                text = f"{first}import sys\nprint(sys.argv)\nsys.stdout.flush()\nprint('its end', file=sys.stderr)\nsys.exit({status})\n"
                pathlib.Path(room, name).write_text(text)
            lines, printed = [f"{room}/{it}" for it in ("slow --part 1", "bad", "good")], io.StringIO()
            with contextlib.redirect_stdout(printed):
                came = run.each_of(lines, 2)()
        self.assertEqual(came, (2, 1, f"Failed: {room}/bad", f"    ['{room}/bad']", "    its end"))
        wanted = [f"== {room}/slow --part 1", f"['{room}/slow', '--part', '1']", "its end"]
        wanted += [line for name in ("bad", "good") for line in (f"== {room}/{name}", f"['{room}/{name}']", "its end")]
        self.assertEqual(printed.getvalue().splitlines(), wanted)


if __name__ == "__main__":
    main()
