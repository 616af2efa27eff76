"""Tests of archives in files that hold more: tables, indexes and views of somebody else, and what ANALYZE adds. Each command is given to
such a file and to a copy that holds the archive alone, and prints the same, also after a VACUUM; the other contents stay as they were.
Other tests are of what is refused, because it is on the archive's own tables. SQLite itself makes all of it. The program is that of
program.py."""
import glob
import os
import shutil
import sqlite3
import subprocess

from tests.program import DATA, LONG, NAMES, PROGRAM, Lines, Serving, get
from tests.wants import main, needs, needs_strict_tables
from uploads import uploads

COUNT = 100
CONFIGURATION = """Codename: box
Architectures: amd64 source
Components: main
KeepDays: 1

Codename: lab
Architectures: amd64 source
Components: main
"""

# The moments of two rounds of commands. What was put at 0 counts in the first one alone.
MOMENTS = "100", "86400"

NOTES = """
CREATE TABLE notes (id INTEGER PRIMARY KEY AUTOINCREMENT, path TEXT NOT NULL UNIQUE, note TEXT NOT NULL, above INTEGER REFERENCES notes (id));
CREATE INDEX of_notes ON notes (note);
CREATE TABLE people (name TEXT PRIMARY KEY, mail BLOB) STRICT;
CREATE VIEW noted AS SELECT files.path, notes.note FROM files JOIN notes ON notes.path = files.path;
INSERT INTO notes (path, note, above) SELECT path, 'a file of the pool', NULL FROM files ORDER BY path;
INSERT INTO notes (path, note, above) VALUES ('elsewhere', 'no file', 1);
INSERT INTO people VALUES ('Ann', x'00ff'), ('Bea', NULL);
"""
KEPT = "notes", "people", "sqlite_sequence", "sqlite_stat1"

# Tables and the like that are on the archive's tables or refer to one, and that keep an index of bodies from being one.
REFUSED = (
    "CREATE INDEX moments ON arrivals (moment)",
    "CREATE INDEX long ON texts (path) WHERE length(body) > 5",
    "CREATE INDEX lengths ON texts (length(body))",
    "CREATE TRIGGER shown AFTER UPDATE ON texts BEGIN SELECT 1; END",
    "CREATE TABLE marks (body INTEGER REFERENCES bodies (id))",
    "CREATE TABLE marks (body INTEGER REFERENCES \"Bodies\" (id) ON DELETE CASCADE)",
    "DROP INDEX arrivals_by_body; CREATE UNIQUE INDEX arrivals_by_body ON arrivals (name)",
    "DROP INDEX arrivals_by_body; CREATE INDEX arrivals_by_body ON arrivals (moment)",
)

# What the library beneath does not open at all.
NOT_OPENED = (
    "CREATE TRIGGER came AFTER INSERT ON arrivals BEGIN SELECT 1; END",
    "CREATE INDEX late ON arrivals (moment) WHERE moment > 5",
    "CREATE INDEX lengths ON arrivals (length(name))",
    "CREATE TABLE marks (body INTEGER REFERENCES bodies (id)); CREATE TRIGGER marked AFTER INSERT ON marks BEGIN SELECT 1; END",
    "CREATE VIEW names AS SELECT name FROM arrivals; CREATE TRIGGER named INSTEAD OF INSERT ON names BEGIN SELECT 1; END",
    "CREATE VIEW names AS SELECT name, row_number() OVER (ORDER BY id) FROM arrivals",
    "CREATE TABLE marks (name TEXT); INSERT INTO marks VALUES ('one'); ALTER TABLE marks ADD COLUMN mark INTEGER DEFAULT 7",
    "CREATE TABLE marks (id INTEGER PRIMARY KEY, above INTEGER REFERENCES marks (id)); INSERT INTO marks VALUES (1, 7)",
)

# What leaves the archive's tables alone.
PASSED_OVER = (
    "DROP INDEX arrivals_by_body",
    "DROP INDEX arrivals_by_body; DROP INDEX files_by_body",
    "CREATE TABLE marks (name TEXT, mark INTEGER); CREATE TRIGGER marked AFTER INSERT ON marks BEGIN DELETE FROM marks WHERE mark = 0; END",
    "CREATE TABLE marks (name TEXT, mark INTEGER); CREATE INDEX high ON marks (mark) WHERE mark > 5",
    "CREATE VIEW names AS SELECT name FROM arrivals",
    "CREATE TABLE marks AS SELECT name FROM arrivals",
    "CREATE TABLE marks (name TEXT PRIMARY KEY, mark INTEGER) WITHOUT ROWID; INSERT INTO marks VALUES ('one', 1)",
    "CREATE TABLE marks (name TEXT COLLATE NOCASE, low TEXT GENERATED ALWAYS AS (lower(name))); INSERT INTO marks VALUES ('One')",
    "CREATE TABLE marks (name TEXT); INSERT INTO marks VALUES ('one'); ALTER TABLE marks ADD COLUMN mark INTEGER",
    "CREATE TABLE marks (name TEXT); DROP TABLE marks",
    "ANALYZE",
    "ANALYZE; DROP TABLE sqlite_stat1",
    "VACUUM",
    "REINDEX",
)


def of_sqlite(db, list_of_statements):
    """Runs statements by SQLite."""
    held = sqlite3.connect(db, isolation_level=None)
    try:
        held.executescript(list_of_statements)
    finally:
        held.close()


def rows_of(db, query):
    held = sqlite3.connect(db)
    try:
        return held.execute(query).fetchall()
    finally:
        held.close()


def kept(db):
    """All rows beside the archive, by their tables."""
    return {table: rows_of(db, f"SELECT * FROM {table} ORDER BY 1, 2") for table in KEPT}


@needs_strict_tables
class Others(Lines):
    def setUp(self):
        self.alone = self.made()
        self.folder = os.path.dirname(self.alone)
        self.beside = f"{self.folder}/beside.db"

    def configure(self):
        """Makes the archive anew with two suites, whose files count for a day."""
        os.unlink(self.alone)
        with open(f"{self.folder}/two.conf", "w", encoding="ascii") as it:
            it.write(CONFIGURATION)
        self.line(0, "init", self.alone, "--at", "0", f"{self.folder}/two.conf")

    def fill(self):
        """Has this number of uploads accepted, of which each tenth has its source, and then makes the copy."""
        paths = [path for made in uploads.make(f"{self.folder}/uploads", COUNT, source_every=10) for path in made]
        self.assertEqual(self.line(0, "put", self.alone, "--at", "0", *paths).count("new "), len(paths))
        self.assertEqual(self.line(0, "run", self.alone, "--at", "0").count("accepted "), COUNT)
        shutil.copyfile(self.alone, self.beside)

    def answer(self, db, word, words):
        """What a command answers: its status, and the bytes on both outputs."""
        ran = subprocess.run([PROGRAM, word, "--db", db, *words], capture_output=True, check=False, timeout=120)
        return ran.returncode, ran.stdout, ran.stderr

    def same(self, word, *words, status=0):
        """Gives a command to both files, which answer the same, and answers what it prints."""
        wanted = self.answer(self.alone, word, words)
        self.assertEqual(wanted[0], status, (word, wanted))
        self.assertEqual(self.answer(self.beside, word, words), wanted, word)
        return wanted[1].decode()

    def served(self, db, at):
        """What a server answers to two requests, and how it ends."""
        with Serving(db, 2, at=at) as serving:
            return [serving.answer(get(path)) for path in ("dists/box/Release", "verdicts")], serving.ended()

    def list_of(self, number, at):
        """A list of commands with an upload of its own, by its path."""
        [paths] = uploads.make(f"{self.folder}/listed{at}", 1, first=number)
        path = f"{self.folder}/list{at}"
        with open(path, "w", encoding="utf-8") as it:
            it.writelines(f"put {file}\n" for file in paths)
            it.writelines(f"{line}\n" for line in ("waiting", "run", f"remove box {uploads.name_of(number)}", "verdicts"))
        return path

    def each_word(self, number, at):
        """Gives each word to both files at a moment: an upload of this number comes, and the source of the next one is listed."""
        [paths] = uploads.make(f"{self.folder}/more{at}", 1, first=number, source_every=1)
        own = uploads.name_of(number)
        self.assertEqual(self.same("put", "--at", at, *paths).count("new "), len(paths))
        self.assertTrue(self.same("waiting", "--at", at).startswith("0 "))
        self.assertEqual(self.same("run", "--at", at), f"accepted {own}_1.0-1_amd64.changes\n")
        self.assertEqual(self.same("verdicts").count("accepted "), number + 1)
        self.assertEqual(self.same("copy", "--at", at, "box", "lab", own), "2\n")
        self.assertGreater(self.same("promote", "--at", at, "box", "lab").count("\n"), COUNT - 10)
        self.assertEqual(self.same("remove", "--at", at, "box", own), "2\n")
        self.same("remove", "--at", at, "lab", uploads.name_of(number % 10 * 10))
        self.same("batch", "--at", at, self.list_of(number + 1, at))
        for suite in ("box", "lab"):
            for path in ("Release", "main/binary-amd64/Packages", "main/source/Sources"):
                self.assertNotEqual(self.same("show", f"dists/{suite}/{path}"), "")
        self.same("clean", "--at", at)
        self.same("show", f"pool/main/{own[0]}/{own}/{own}_1.0-1_amd64.control", status=1)
        self.assertEqual(self.served(self.beside, at), self.served(self.alone, at))
        self.assertEqual(self.same("init", "--at", at, f"{self.folder}/two.conf", status=1), "")

    def test_each_word_beside_others(self):
        self.configure()
        self.fill()
        of_sqlite(self.beside, NOTES + "ANALYZE;")
        before = kept(self.beside)
        self.assertEqual(len(rows_of(self.beside, "SELECT * FROM noted")), COUNT + 3 * COUNT // 10)
        for number, at in zip((COUNT, COUNT + 2), MOMENTS):
            self.each_word(number, at)
            of_sqlite(self.beside, "VACUUM;")
            self.assertEqual(kept(self.beside), before)
        self.same("verdicts")
        self.assertEqual(rows_of(self.beside, "PRAGMA integrity_check"), [("ok",)])
        self.assertEqual(rows_of(self.beside, "PRAGMA foreign_key_check"), [])

    def change(self, statements):
        """Makes the copy anew, without the log of the one before, and runs statements on it."""
        for path in glob.glob(f"{self.beside}*"):
            os.unlink(path)
        shutil.copyfile(self.alone, self.beside)
        of_sqlite(self.beside, statements)

    def test_what_stands_on_the_archive_is_refused(self):
        for statements in REFUSED:
            with self.subTest(statements):
                self.change(statements)
                self.assertEqual(self.answer(self.beside, "verdicts", ()), (1, b"", b"archive: K4\n"))

    def test_what_the_library_does_not_read_is_not_opened(self):
        for statements in NOT_OPENED:
            with self.subTest(statements):
                self.change(statements)
                self.assertEqual(self.answer(self.beside, "verdicts", ()), (3, b"", b"archive: K2\n"))

    def test_what_leaves_the_archive_alone_is_passed_over(self):
        for statements in PASSED_OVER:
            with self.subTest(statements):
                self.change(statements)
                marks = rows_of(self.beside, "SELECT * FROM marks") if "INTO marks" in statements else None
                self.assertEqual(self.answer(self.beside, "verdicts", ()), (0, b"", b""))
                put = self.answer(self.beside, "put", ("--at", "0", f"{DATA}/{NAMES[1]}"))
                self.assertEqual(put, (0, f"new {NAMES[1]}\n".encode(), b""))
                self.assertEqual(self.answer(self.beside, "run", ("--at", "0")), (0, b"", b""))
                self.assertEqual(rows_of(self.beside, "PRAGMA integrity_check"), [("ok",)])
                if marks is not None:
                    self.assertEqual(rows_of(self.beside, "SELECT * FROM marks"), marks)

    @needs("sqlite3")
    def test_what_is_dumped_into_a_new_file_is_one(self):
        self.configure()
        self.fill()
        of_sqlite(self.beside, NOTES + "ANALYZE;")
        before, source = kept(self.beside), self.beside
        self.beside = f"{self.folder}/dumped.db"
        ran = subprocess.run(["sh", "-ec", f"sqlite3 {source} .dump | sqlite3 {self.beside}"], capture_output=True, check=False, timeout=LONG)
        self.assertEqual((ran.returncode, ran.stdout, ran.stderr), (0, b"", b""))
        self.each_word(COUNT, MOMENTS[0])
        self.assertEqual(kept(self.beside), before)

    def test_none_is_made_beside_others(self):
        conf = f"{self.folder}/box.conf"
        for statements in ("CREATE TABLE t (a TEXT)", "CREATE TABLE t (a TEXT); CREATE INDEX i ON t (a)", "CREATE VIEW v AS SELECT 1"):
            with self.subTest(statements):
                path = f"{self.folder}/{len(statements)}.db"
                of_sqlite(path, statements)
                before = rows_of(path, "SELECT name, sql FROM sqlite_master")
                self.assertEqual(self.answer(path, "init", ("--at", "0", conf)), (1, b"", b"archive: K4\n"))
                self.assertEqual(rows_of(path, "SELECT name, sql FROM sqlite_master"), before)


if __name__ == "__main__":
    main()
