"""Tests of archives that other programs made. The file tests/archives/N.db is an archive of layout N, which a released program made. No
released program made the layouts 1 and 2: for these it is made by the statements of older.py. N.expected has what the archive shows: after each
line `$ WORDS`, with the words of a command without its database, what that prints, with a line `(no newline)` after a text without an end. The
file of the layout that tables::meta::VERSION names has to be there; whoever changes the layout raises the number and adds a file. The archives
of older layouts are taken through `migrate` first, under the configuration that they have. Then the line of 'Upgrading' in docs/OPERATING.md is
run. The program is that of program.py."""
import os
import pathlib
import re
import shutil
import sqlite3
import subprocess
import tempfile
import unittest

from tests import older
from tests.program import DATA, LONG, NAMES, PROGRAM, ROOT, Lines
from tests.snippets import snippet
from tests.test_lines import ended
from tests.wants import main, needs, needs_strict_tables
from uploads import uploads

ARCHIVES = pathlib.Path(ROOT, "tests/archives")
WORLD = uploads.Package("world")
SHOWN = ("dists/box/Release", "dists/box/main/binary-amd64/Packages", "dists/box/main/source/Sources", "pool/main/h/hello/hello_1.0-1_amd64.deb")

# The keys of `arrivals` and `files`, and those that the line of the page takes for other ones.
KEYS = {
    "UNIQUE (name, body)": "UNIQUE (body, name)",
    "files (path TEXT NOT NULL PRIMARY KEY, body INTEGER NOT NULL REFERENCES bodies (id))": "files (path TEXT NOT NULL PRIMARY KEY, body INTEGER NOT NULL REFERENCES bodies (id), UNIQUE (body, path))",
}


def layout():
    """The layout that this program's archives have."""
    source = pathlib.Path(ROOT, "crates/tables/src/meta.rt").read_text(encoding="utf-8")
    [number] = re.findall(r"^pub const VERSION: u64 = (\d+);$", source, re.M)
    return int(number)


def expected(number):
    """The words of each command on the archive of a layout, in their order, with what it prints."""
    text = (ARCHIVES / f"{number}.expected").read_text(encoding="utf-8")
    front, *pieces = re.split(r"^\$ (.*)\n", text, flags=re.M)
    if front or not pieces:
        raise ValueError(f"{number}.expected does not begin with a command")
    return [(words.split(), printed) for words, printed in zip(pieces[::2], pieces[1::2])]


def rows_of(db, query):
    held = sqlite3.connect(f"file:{db}?mode=ro&immutable=1", uri=True)
    try:
        return held.execute(query).fetchall()
    finally:
        held.close()


class Layouts(unittest.TestCase):
    """Tests that need no program."""

    def test_the_present_layout_has_a_file(self):
        for name in (f"{layout()}.db", f"{layout()}.expected", f"{layout()}.texts"):
            self.assertTrue((ARCHIVES / name).is_file(), f"there is no tests/archives/{name}: a layout that is released has a file")

    def test_each_file_has_what_it_shows(self):
        names = {it.name for it in ARCHIVES.iterdir() if it.suffix != ".texts"}
        numbers = {name.removesuffix(".db") for name in names if name.endswith(".db")}
        self.assertEqual(names, {f"{number}.{kind}" for number in numbers for kind in ("db", "expected")})
        for number in numbers:
            self.assertTrue(expected(number), number)

    @needs_strict_tables
    def test_each_file_is_of_its_layout(self):
        for path in ARCHIVES.glob("*.db"):
            with self.subTest(path.name):
                self.assertEqual(rows_of(path, "SELECT version FROM meta"), [(int(path.stem),)])

    @needs_strict_tables
    def test_the_first_layouts_are_of_their_statements(self):
        """No program made these two: each file has the rows that older.py writes."""
        for number in older.TABLES:
            with self.subTest(number), tempfile.TemporaryDirectory() as folder:
                made = older.archive(is_pair=True, more=[older.waiting()]).make(number, f"{folder}/a.db")
                for query in ("SELECT name, sql FROM sqlite_master", *(f"SELECT rowid, * FROM {name}" for (name,) in rows_of(made, "SELECT name FROM sqlite_master WHERE type = 'table'"))):
                    self.assertEqual(rows_of(ARCHIVES / f"{number}.db", query), rows_of(made, query))


class Shown(Lines):
    """An archive, and what it prints."""

    def setUp(self):
        room = tempfile.TemporaryDirectory()
        self.addCleanup(room.cleanup)
        self.folder, self.db = room.name, f"{room.name}/box.db"

    def printed(self, words):
        """What a command of these words prints; it has to end well and to say nothing on standard error."""
        word, *rest = words
        ran = subprocess.run([PROGRAM, word, "--db", self.db, *rest], cwd=ROOT, capture_output=True, check=False, timeout=120)
        self.assertEqual((ran.returncode, ran.stderr), (0, b""), words)
        return ran.stdout

    def shows(self, number):
        """Looks whether it shows what the archive of this layout showed."""
        for words, printed in expected(number):
            with self.subTest(" ".join(words), layout=number):
                self.assertEqual(ended(self.printed(words)).decode(), printed)


class Older(Shown):
    """The archives of older layouts, which a migration reads."""

    def test_they_show_what_they_showed(self):
        numbers = [int(it.stem) for it in ARCHIVES.glob("*.db") if int(it.stem) < layout()]
        self.assertNotEqual(numbers, [])
        for number in sorted(numbers):
            self.migrated(number)
            self.shows(number)

    def migrated(self, number):
        """Makes the archive anew of the one of this layout, which stays as it is."""
        for name in os.listdir(self.folder):
            os.unlink(f"{self.folder}/{name}")
        old, conf = pathlib.Path(self.folder, "old.db"), pathlib.Path(self.folder, "old.conf")
        shutil.copyfile(ARCHIVES / f"{number}.db", old)
        [(text,)] = rows_of(old, "SELECT configuration FROM meta")
        conf.write_bytes(text)
        self.assertEqual(self.printed(["migrate", "--from", old, "--at", "1467436851", conf]), b"")
        self.assertEqual(old.read_bytes(), (ARCHIVES / f"{number}.db").read_bytes())
        self.assertEqual(sorted(it for it in os.listdir(self.folder) if it.startswith("old")), ["old.conf", "old.db"])


class Copies(Shown):
    """The archive of the present layout, which an earlier program made."""

    def setUp(self):
        super().setUp()
        shutil.copyfile(ARCHIVES / f"{layout()}.db", self.db)

    def test_it_shows_what_it_showed(self):
        self.shows(layout())

    def test_it_takes_an_upload(self):
        """A whole upload is judged, and shown after what was there."""
        self.printed(["put", "--at", "1467436851", *uploads.write(f"{self.folder}/world", uploads.upload_of(WORLD))])
        self.assertEqual(self.printed(["run", "--at", "1467436851"]), b"accepted world_1.0-1_amd64.changes\n")
        text = self.printed(["show", "dists/box/main/binary-amd64/Packages"])
        self.assertEqual(re.findall(rb"^Package: (.*)$", text, re.M), [b"hello", b"world"])
        self.assertEqual(self.printed(["show", "pool/main/w/world/world_1.0-1_amd64.deb"]), uploads.deb_of(WORLD))


def former(sql):
    """The text of a table with the keys that the line of the page takes for other ones."""
    for present, past in KEYS.items():
        sql = sql.replace(present, past)
    return sql


@needs_strict_tables
class Upgrading(Lines):
    """An archive of other keys, which a program before the first release made."""

    def make_former(self, db):
        """Makes a database `old.db` beside an archive, with its rows under the former keys and without its indexes of bodies."""
        held = sqlite3.connect(f"{os.path.dirname(db)}/old.db")
        self.addCleanup(held.close)
        held.execute("ATTACH ? AS present", (db,))
        tables = held.execute("SELECT name, sql FROM present.sqlite_master WHERE type = 'table' ORDER BY rowid").fetchall()
        self.assertEqual(len([name for name, sql in tables if former(sql) != sql]), len(KEYS))
        for name, sql in tables:
            held.execute(former(sql))
            held.execute(f"INSERT INTO {name} SELECT * FROM present.{name} ORDER BY rowid")
        held.commit()
        held.close()

    def shell(self, folder, text):
        """Runs a text by a shell in a folder, which ends well and says nothing."""
        ran = subprocess.run(["sh", "-ec", text], cwd=folder, capture_output=True, text=True, check=False, timeout=LONG)
        self.assertEqual((ran.returncode, ran.stdout, ran.stderr), (0, "", ""))

    @needs("sqlite3")
    def test_the_lines_migrate_an_older_layout(self):
        with tempfile.TemporaryDirectory() as folder:
            older.archive().make(1, f"{folder}/old.db")
            os.symlink(os.path.abspath(PROGRAM), f"{folder}/archive")
            text = f"PATH={folder}:$PATH\n" + snippet("migrate")
            ran = subprocess.run(["sh", "-ec", text], cwd=folder, capture_output=True, text=True, check=False, timeout=LONG)
            self.assertEqual((ran.returncode, ran.stdout, ran.stderr), (0, f"accepted {NAMES[0]}\n", ""))
            for path, text in older.archive().suites[0].texts().items():
                self.assertEqual(self.line(0, "show", f"{folder}/box.db", path), text.decode())

    @needs("sqlite3")
    def test_the_line_brings_it_over(self):
        db = self.accepted()
        folder = os.path.dirname(db)
        old, new = f"{folder}/old.db", f"{folder}/new.db"
        self.make_former(db)
        self.assertEqual(self.line(1, "verdicts", old), "archive: K4\n")
        self.shell(folder, snippet("bring over"))
        for path in SHOWN:
            self.assertEqual(self.line(0, "show", new, path), self.line(0, "show", db, path))
        self.assertEqual(self.line(0, "verdicts", new), f"accepted {NAMES[0]}\n")
        self.assertEqual(self.line(0, "waiting", new, "--at", "0"), "")
        self.assertEqual(self.line(0, "put", new, "--at", "0", f"{DATA}/{NAMES[1]}"), f"again {NAMES[1]}\n")
        self.assertEqual(self.line(0, "remove", new, "--at", "0", "box", "hello"), "1\n")
        self.assertEqual(rows_of(new, "SELECT name FROM sqlite_master WHERE name LIKE '%_by_body'"), [])
        self.shell(folder, snippet("indexes"))
        self.assertEqual(len(rows_of(new, "SELECT name FROM sqlite_master WHERE name LIKE '%_by_body'")), 2)
        self.assertEqual(self.line(0, "verdicts", new), f"accepted {NAMES[0]}\n")


if __name__ == "__main__":
    main()
