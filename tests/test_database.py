"""A test of the database files that the program makes, with SQLite itself: SQLite reads them and finds them whole, and the program
finds what SQLite changes in one. Another test is of a file that another process holds. The program is the one that `rt ci` or
`make build` built, or the one that ARCHIVE names; if there is none the tests say that they were skipped, and so do those with
SQLite if it is too old for STRICT tables."""
import contextlib
import sqlite3

from tests.program import DATA, NAMES, Lines, Serving
from tests.wants import main, needs_strict_tables


class Held(Lines):
    def test_a_second_holder_is_refused(self):
        db = self.accepted()
        with Serving(db, 2) as serving:
            serving.answer(b"")
            self.assertEqual(self.line(3, "run", db, "--at", "0"), "archive: K2\n")
            serving.answer(b"")
            self.assertEqual(serving.ended(), (0, "", ""))
        self.assertEqual(self.line(0, "verdicts", db), f"accepted {NAMES[0]}\n")


@needs_strict_tables
class Database(Lines):
    def change(self, db, statement):
        held = sqlite3.connect(db)
        with held:
            changed = held.execute(statement).rowcount
        held.close()
        self.assertNotEqual(changed, 0, statement)

    def test_sqlite_finds_it_whole(self):
        held = sqlite3.connect(self.accepted())
        self.addCleanup(held.close)
        self.assertEqual(held.execute("PRAGMA integrity_check").fetchall(), [("ok",)])
        self.assertEqual(held.execute("PRAGMA foreign_key_check").fetchall(), [])
        names = [row[0] for row in held.execute("SELECT name FROM arrivals ORDER BY id")]
        self.assertEqual(names, NAMES)
        with open(f"{DATA}/{NAMES[1]}", "rb") as it:
            pooled = held.execute("SELECT p.bytes FROM files f JOIN pieces p ON p.body = f.body WHERE f.path LIKE '%.deb'")
            self.assertEqual(pooled.fetchall(), [(it.read(),)])
        [(text,)] = held.execute("SELECT body FROM texts WHERE path = 'dists/box/main/binary-amd64/Packages'").fetchall()
        self.assertEqual(len(text), 324)

    def test_sqlite_refuses_what_the_keys_forbid(self):
        """A second row under one key, and to take a row away that another names."""
        held = sqlite3.connect(self.accepted())
        self.addCleanup(held.close)
        held.execute("PRAGMA foreign_keys = ON")
        for statement in (
            "INSERT INTO texts SELECT path, body FROM texts",
            "INSERT INTO dates SELECT suite, moment FROM dates",
            "INSERT INTO items SELECT id + 9, suite, kind, package, architecture, version, component, source, paragraph FROM items",
            "DELETE FROM items",
            "DELETE FROM bodies",
        ):
            with self.subTest(statement), self.assertRaises(sqlite3.IntegrityError):
                held.execute(statement)

    def test_a_changed_row_is_found(self):
        for statement in (
            "UPDATE dates SET moment = moment + 1",
            "UPDATE texts SET body = x'0a' WHERE path LIKE '%/Packages'",
            "UPDATE meta SET configuration = x''",
            "DELETE FROM files",
        ):
            with self.subTest(statement):
                db = self.accepted()
                self.change(db, statement)
                self.assertEqual(self.line(1, "verdicts", db), "archive: K4\n")

    def test_what_sqlite_stores_anew_still_opens(self):
        db = self.accepted()
        held = sqlite3.connect(db)
        held.execute("VACUUM")
        held.close()
        self.assertEqual(self.line(0, "verdicts", db), f"accepted {NAMES[0]}\n")

    def test_a_file_with_automatic_vacuum_is_not_opened_until_that_goes(self):
        db = self.accepted()
        for mode, status, told in ((1, 3, "archive: K2\n"), (2, 3, "archive: K2\n"), (0, 0, f"accepted {NAMES[0]}\n")):
            with contextlib.closing(sqlite3.connect(db)) as held:
                held.execute(f"PRAGMA auto_vacuum = {mode}")
                held.execute("VACUUM")
            with self.subTest(mode):
                self.assertEqual(self.line(status, "verdicts", db), told)


if __name__ == "__main__":
    main()
