"""Tests of archives whose rows have another order, and other numbers, than the program gave them: SQLite may keep a table's rows in any order, and no
answer depends on that order or on the numbers of bodies, arrivals, uploads and items. The numbers of arrivals keep their order, since they say what came
first. An archive of each layout is taken with its rows shuffled, again and again, and has to answer as it does with its rows as they were written. If a
row is taken away or doubled, it is another archive or none: no answer is a failure of the disk. The program is that of program.py."""
import collections
import contextlib
import itertools
import os
import pathlib
import random
import shutil
import sqlite3
import subprocess
import tempfile
import unittest

from tests import older
from tests.program import PROGRAM
from tests.wants import main, missing, needs_strict_tables
from uploads import uploads

SHUFFLES = 20
# The number of rows of each table that are taken away or doubled.
OF_TABLE = 4
# The moment of the archive, and one after it.
AT, LATER = 1_467_436_850, 1_467_436_900

# What is accepted, with a source, with several pieces, and in several versions; and what waits.
SHOWN = [
    uploads.Package("alpha", source=True),
    uploads.Package("beta", pad=200_000),
    uploads.Package("gamma"),
    uploads.Package("gamma", version="1.1-1", source=True),
    uploads.Package("delta", version="3.0-1"),
]
WAITING = [uploads.Package("omega", pad=150_000), uploads.Package("sigma"), uploads.Package("tau", source=True)]

# The tables whose rows have a number, and the columns of other tables that name it: of the present layout, and of the older ones.
PRESENT = {
    "bodies": [("pieces", "body"), ("arrivals", "body"), ("files", "body")],
    "arrivals": [],
    "uploads": [("wants", "upload")],
    "items": [("refs", "item")],
}
NUMBERED = {
    1: {"arrivals": [("uploads", "arrival"), ("wants", "upload")], "items": [("refs", "item")]},
    2: {"bodies": [("pieces", "body"), ("arrivals", "body"), ("files", "body")], "arrivals": [("uploads", "arrival"), ("wants", "upload")], "items": [("refs", "item")]},
    3: PRESENT,
}


def rows_of(held, table):
    return held.execute(f"SELECT * FROM {table}").fetchall()


def columns_of(held, table):
    return [row[1] for row in held.execute(f"PRAGMA table_info({table})")]


def tables_of(held):
    return [name for (name,) in held.execute("SELECT name FROM sqlite_master WHERE type = 'table' ORDER BY rowid")]


@contextlib.contextmanager
def opened(db):
    """A database that is changed in one transaction, at the end of which its keys hold."""
    with contextlib.closing(sqlite3.connect(db)) as held:
        with held:
            held.execute("PRAGMA defer_foreign_keys = ON")
            yield held
        held.execute("PRAGMA wal_checkpoint(TRUNCATE)")


def numbers(rng, count):
    """This number of numbers, which rise, some below 0."""
    return sorted(rng.sample(range(-1_000_000, 1_000_000), count))


def renumbered(held, layout, rng):
    """For each table whose rows have a number: the new one of each. Those of arrivals rise as before."""
    found = {}
    for table in NUMBERED[layout]:
        old = [number for (number,) in held.execute(f"SELECT id FROM {table} ORDER BY id")]
        new = numbers(rng, len(old))
        if table != "arrivals":
            rng.shuffle(new)
        found[table] = dict(zip(old, new))
    return found


def shuffle(db, layout, seed):
    """Writes the rows of all tables anew, in another order and under other numbers."""
    rng = random.Random(seed)
    with opened(db) as held:
        new = renumbered(held, layout, rng)
        naming = collections.defaultdict(dict)
        for table, places in NUMBERED[layout].items():
            naming[table]["id"] = new[table]
            for other, column in places:
                naming[other][column] = new[table]
        held.commit()
        held.execute("PRAGMA foreign_keys = OFF")
        for table in tables_of(held):
            columns, rows = columns_of(held, table), rows_of(held, table)
            changed = [[naming[table].get(column, {}).get(cell, cell) for column, cell in zip(columns, row)] for row in rows]
            rng.shuffle(changed)
            held.execute(f"DELETE FROM {table}")
            # A table's own number is its rowid; the rows of another get one that says nothing.
            ids = [None] * len(changed) if is_numbered(held, table) else numbers(rng, len(changed))
            for rowid, row in zip(ids, changed):
                names, cells = (columns, row) if rowid is None else (["rowid", *columns], [rowid, *row])
                held.execute(f"INSERT INTO {table} ({', '.join(names)}) VALUES ({', '.join('?' * len(cells))})", cells)


def is_numbered(held, table):
    """Whether the key of a table is one column of whole numbers, which is its rowid."""
    return [row[2] for row in held.execute(f"PRAGMA table_info({table})") if row[5]] == ["INTEGER"]


def take_away(held, layout, table, rowid):
    """Takes a row away, and first each that refers to it."""
    for other, column in NUMBERED[layout].get(table, []):
        for (number,) in held.execute(f"SELECT rowid FROM {other} WHERE {column} = ?", (rowid,)).fetchall():
            take_away(held, layout, other, number)
    if table == "uploads" and layout < 3:  # its number is that of its arrival
        held.execute("DELETE FROM wants WHERE upload = ?", (rowid,))
    held.execute(f"DELETE FROM {table} WHERE rowid = ?", (rowid,))


@needs_strict_tables
class Orders(unittest.TestCase):
    """An archive of each layout, made once."""

    @classmethod
    def setUpClass(cls):
        if not os.path.exists(PROGRAM):
            raise missing(PROGRAM)
        room = tempfile.TemporaryDirectory()
        cls.addClassCleanup(room.cleanup)
        cls.folder = pathlib.Path(room.name)
        cls.files = {it: uploads.upload_of(it) for it in (*SHOWN, *WAITING)}
        cls.conf = cls.folder / "box.conf"
        cls.conf.write_text(uploads.CONFIGURATION, encoding="ascii")
        cls.make(cls.folder / "3.db")
        for layout in (1, 2):
            cls.make_older(layout)

    @classmethod
    def ran(cls, *words):
        """What a command answers: its status, and what it printed on both outputs."""
        done = subprocess.run([PROGRAM, *map(str, words)], capture_output=True, check=False, timeout=120)
        return done.returncode, done.stdout, done.stderr

    @classmethod
    def done(cls, *words):
        status, printed, told = cls.ran(*words)
        if status or told:
            raise AssertionError((words, status, printed, told))
        return printed

    @classmethod
    def deliver(cls, db, files, at=AT):
        with tempfile.TemporaryDirectory() as folder:
            cls.done("put", "--db", db, "--at", at, *uploads.write(f"{folder}/up", files))

    @classmethod
    def make(cls, db):
        """The archive, as the program writes it: one upload after another, one run; a copy; then what waits, of which some files came."""
        cls.done("init", "--db", db, "--at", "0", cls.conf)
        for package in SHOWN:
            cls.deliver(db, cls.files[package])
        cls.done("run", "--db", db, "--at", AT)
        cls.done("copy", "--db", db, "--at", AT, "box", "lab", "alpha")
        for package, count in zip(reversed(WAITING), itertools.count(1)):
            *names, changes = cls.files[package]
            cls.deliver(db, {it: cls.files[package][it] for it in [changes, *names[:count]]})

    @classmethod
    def make_older(cls, layout):
        """The archive in an older layout, with the wants of judged uploads, which that layout still has."""
        with contextlib.closing(sqlite3.connect(cls.folder / "3.db")) as held:
            rows = {table: rows_of(held, table) for table in tables_of(held)}
        pieces = collections.defaultdict(dict)
        for body, number, piece in rows["pieces"]:
            pieces[body][number] = piece
        bodies = {row[0]: b"".join(piece for _, piece in sorted(pieces[row[0]].items())) for row in rows["bodies"]}
        arrivals = [(number, name, bodies[body]) for number, name, body, _ in rows["arrivals"]]
        came = {(name, body) for _, name, body in arrivals}
        judged = {(row[1], row[2:6]): row[6:] for row in rows["uploads"]}
        wanted = {next(reversed(files)): files for files in cls.files.values()}
        with contextlib.closing(sqlite3.connect(cls.folder / f"{layout}.db")) as held, held:
            for text in older.TABLES[layout]:
                held.execute(text)

            def insert(table, row):
                held.execute(f"INSERT INTO {table} VALUES ({', '.join('?' * len(row))})", row)

            insert("meta", (layout, rows["meta"][0][1]))
            if layout == 2:
                for table in ("bodies", "pieces"):
                    for row in rows[table]:
                        insert(table, row)
            for (number, name, body), row in zip(arrivals, rows["arrivals"]):
                insert("arrivals", (number, name, *older.print_of(body), body) if layout == 1 else row[:3])
            for number, name, body in arrivals:
                if name.endswith(".changes"):
                    insert("uploads", (number, *judged[name, older.print_of(body)]))
                    for entry, listed in wanted[name].items():
                        if entry != name:
                            insert("wants", (number, entry, *older.print_of(listed), int((entry, listed) in came)))
            for path, body in rows["files"]:
                insert("files", (path, *older.print_of(bodies[body]), bodies[body]) if layout == 1 else (path, body))
            for table in ("items", "refs", "texts", "dates"):
                for row in rows[table]:
                    insert(table, row)

    def setUp(self):
        room = tempfile.TemporaryDirectory()
        self.addCleanup(room.cleanup)
        self.room = pathlib.Path(room.name)

    def copied(self, layout, name="a.db"):
        """A copy of the archive of a layout."""
        return pathlib.Path(shutil.copyfile(self.folder / f"{layout}.db", self.room / name))

    def moved(self, layout, db, name="new.db"):
        """The archive as one of the present layout, and what its migration answered."""
        if layout == 3:
            return db, self.ran("verdicts", "--db", db)
        new = self.room / name
        for path in self.room.glob(f"{name}*"):
            path.unlink()
        return new, self.ran("migrate", "--from", db, "--db", new, "--at", LATER, self.conf)

    def paths(self, db):
        with contextlib.closing(sqlite3.connect(db)) as held:
            return sorted(path for table in ("texts", "files") for (path,) in held.execute(f"SELECT path FROM {table}"))

    def shown(self, db):
        """All that the archive shows."""
        listed = [self.done("list", "--db", db, suite) for suite in ("box", "lab")]
        asked = [self.done(word, "--db", db, *words) for word, words in (("verdicts", []), ("waiting", ["--at", AT]), ("why", []), ("configuration", []))]
        return [*listed, *asked, *((path, self.done("show", "--db", db, path)) for path in self.paths(db))]

    def answers(self, db):
        """What the archive answers, also after what waits has come, a run, a copy, a removal and a new upload."""
        found = [self.shown(db)]
        for package in WAITING:
            self.deliver(db, self.files[package], LATER)
        found += [self.done("run", "--db", db, "--at", LATER), self.shown(db)]
        found += [self.done("copy", "--db", db, "--at", LATER, "box", "lab", it) for it in ("tau", "beta")]
        found += [self.done("remove", "--db", db, "--at", LATER, "box", "alpha"), self.shown(db)]
        self.deliver(db, uploads.upload_of(uploads.Package("alpha", version="1.2-1", source=True)), LATER)
        return [*found, self.done("run", "--db", db, "--at", LATER), self.shown(db)]

    def check_shuffled(self, layout):
        untouched, answer = self.moved(layout, self.copied(layout, "as-made.db"), "as-made-new.db")
        self.assertEqual((answer[0], answer[2]), (0, b""))
        wanted = self.answers(untouched)
        for seed in range(SHUFFLES):
            with self.subTest(layout=layout, seed=seed):
                db = self.copied(layout)
                shuffle(db, layout, seed)
                new, answer = self.moved(layout, db)
                self.assertEqual((answer[0], answer[2]), (0, b""))
                self.assertEqual(self.answers(new), wanted)

    def test_shuffled_rows_of_the_present_layout(self):
        self.check_shuffled(3)

    def test_shuffled_rows_of_the_first_layout(self):
        self.check_shuffled(1)

    def test_shuffled_rows_of_the_second_layout(self):
        self.check_shuffled(2)

    def check_changed(self, layout, change):
        """A change of a few rows of each table, one at a time: the answer is an archive's, or K4, and never that of a failure."""
        rng, tried = random.Random(layout), 0
        with contextlib.closing(sqlite3.connect(self.folder / f"{layout}.db")) as held:
            places = {table: [rowid for (rowid,) in held.execute(f"SELECT rowid FROM {table}")] for table in tables_of(held)}
        for table, rowids in places.items():
            for rowid in rng.sample(rowids, min(OF_TABLE, len(rowids))):
                db = self.copied(layout)
                with contextlib.closing(sqlite3.connect(db)) as held, contextlib.suppress(sqlite3.IntegrityError), held:
                    held.execute("PRAGMA foreign_keys = ON")
                    change(held, table, rowid)
                    tried += 1
                with self.subTest(layout=layout, table=table, rowid=rowid):
                    _, (status, _, told) = self.moved(layout, db)
                    self.assertIn((status, told), [(0, b""), (1, b"archive: K4\n")])
        self.assertGreater(tried, 0)

    def test_a_row_less(self):
        """A row is taken away, and with it the rows that refer to it, as the keys of the tables have it."""
        for layout in NUMBERED:
            self.check_changed(layout, lambda held, table, rowid, layout=layout: take_away(held, layout, table, rowid))

    def test_a_row_twice(self):
        """A key forbids most of it."""

        def double(held, table, rowid):
            columns = [it for it in columns_of(held, table) if it != "id" and (table, it) != ("uploads", "arrival")]
            held.execute(f"INSERT INTO {table} ({', '.join(columns)}) SELECT {', '.join(columns)} FROM {table} WHERE rowid = ?", (rowid,))

        for layout in NUMBERED:
            self.check_changed(layout, double)


if __name__ == "__main__":
    main()
