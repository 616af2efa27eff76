"""Tests of databases from which no archive is opened, and that say which layout they have: for an older or a later one a second line says
so, and for an older one it names what reads it. The program is that of program.py."""
import os
import pathlib
import sqlite3

from tests.program import NAMES, Lines
from tests.test_archives import layout
from tests.test_command_lines import COMMANDS, Words
from tests.wants import main, needs_strict_tables

CONFIGURATION = b"Codename: box\nArchitectures: amd64 source\nComponents: main\n"
META = "CREATE TABLE meta (version INTEGER NOT NULL, configuration BLOB NOT NULL)"

PRESENT = layout()
ALONE = "archive: K4\n"


def told(number):
    """What is printed of a database that says that it is of this layout, which is not the present one."""
    more = ": archive migrate reads it" if number < PRESENT else ", which a later program made"
    return f"{ALONE}archive: an archive of layout {number}{more}\n"


class Layouts(Words):
    """Databases with a table like `meta` alone."""

    def setUp(self):
        super().setUp()
        self.db = pathlib.Path(self.folder, "a.db")

    def make(self, *versions, text=META):
        """A new database with a table of this text, in which each version has a row."""
        for name in os.listdir(self.folder):
            os.unlink(f"{self.folder}/{name}")
        held = sqlite3.connect(self.db)
        with held:
            held.execute(text)
            for version in versions:
                held.execute("INSERT INTO meta VALUES (?, ?)", (version, CONFIGURATION))
        held.close()

    def refused(self, printed, command="verdicts", words=None):
        """A command on the database, which prints this on standard error and leaves the file as it is."""
        before = self.db.read_bytes()
        self.assertEqual(self.ran(command, *(words or COMMANDS[command])), (1, "", printed))
        self.assertEqual(self.db.read_bytes(), before)

    def test_the_layout_of_an_older_program(self):
        for number in range(1, PRESENT):
            with self.subTest(number):
                self.make(number)
                self.refused(told(number))

    def test_the_layout_of_a_later_program(self):
        for number in (PRESENT + 1, PRESENT + 2, 2**63 - 1):
            with self.subTest(number):
                self.make(number)
                self.refused(told(number))

    def test_each_command_tells_it(self):
        for number in (PRESENT - 1, PRESENT + 1):
            for command in COMMANDS:
                with self.subTest(number=number, command=command):
                    self.make(number)
                    self.refused(told(number), command)

    def test_init_does_not(self):
        """It makes an archive if there is nothing, whatever the layout."""
        for number in (PRESENT - 1, PRESENT + 1):
            with self.subTest(number):
                self.make(number)
                pathlib.Path(self.folder, "box.conf").write_bytes(CONFIGURATION)
                self.refused(ALONE, "init", ["--db", "a.db", "--at", "0", "box.conf"])

    def test_the_present_layout(self):
        self.make(PRESENT)
        self.refused(ALONE)

    def test_no_number(self):
        """Two rows or none, and a value that is no number or below 1."""
        for versions in ((), (2, 2), (2, 4), ("two",), ("",), (b"2",), (2.5,), (-2,), (0,)):
            with self.subTest(versions):
                self.make(*versions)
                self.refused(ALONE)

    def test_no_version(self):
        for text in ("CREATE TABLE notes (version INTEGER)", "CREATE TABLE meta (layout INTEGER)"):
            with self.subTest(text):
                self.make(text=text)
                self.refused(ALONE)

    def test_an_empty_file(self):
        self.db.touch()
        self.refused(ALONE)


@needs_strict_tables
class Numbered(Lines):
    """An archive of this program."""

    def number(self, db, number):
        """Writes another number into it."""
        held = sqlite3.connect(db)
        with held:
            held.execute("UPDATE meta SET version = ?", (number,))
        held.close()

    def test_another_number(self):
        """Nothing is done to it: it opens again once the number is back."""
        db = self.accepted()
        for number in (PRESENT - 1, PRESENT + 1):
            self.number(db, number)
            self.assertEqual(self.line(1, "verdicts", db), told(number))
        self.number(db, PRESENT)
        self.assertEqual(self.line(0, "verdicts", db), f"accepted {NAMES[0]}\n")


if __name__ == "__main__":
    main()
