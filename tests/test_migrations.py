"""Tests of archives of older layouts, which `migrate` reads: what it makes from them and what it refuses, that the older file stays as it is,
and what a kill leaves: no archive or a whole one. The older files are made by the statements of older.py. The program is that of program.py.
Without strace a kill comes only at random times, and if SQLite is too old for STRICT tables nothing is tried; the tests say that they were
skipped."""
import contextlib
import fcntl
import os
import pathlib
import re
import shutil
import sqlite3
import subprocess
import time

from tests import older
from tests.older import BOX, LAB, RUN
from tests.program import DATA, LONG, NAMES, PROGRAM
from tests.test_command_lines import Words
from tests.wants import main, needs, needs_root, needs_strict_tables
from uploads import uploads

LAYOUTS = sorted(older.TABLES)
PAIR = f"{BOX}\n{LAB}"
# The moment of a migration, and the second from which on what arrived then counts no more under `KeepDays: 1`.
MOVED, GONE = 1000, 87_400

# What may change a file or leave it for good: a kill comes at each of these calls.
CALLS = ("pwrite64", "write", "fsync", "fdatasync", "ftruncate")
# The number of kills that come at random times.
KILLS = 20

K2, K4, K5 = ((status, "", f"archive: {fault}\n") for status, fault in ((3, "K2"), (1, "K4"), (1, "K5")))
DONE = (0, "", "")

# What a file of an older layout may have that makes it no archive, by statements, for both layouts.
CHANGES = [
    "UPDATE meta SET version = 3",
    "UPDATE meta SET version = 0",
    "INSERT INTO meta SELECT * FROM meta",
    "DELETE FROM meta",
    "UPDATE meta SET configuration = CAST('Codename: box' AS BLOB)",
    "UPDATE wants SET here = 0 WHERE name LIKE '%.deb'",
    "DELETE FROM wants WHERE name LIKE '%.deb'",
    "UPDATE uploads SET place = NULL",
    "UPDATE uploads SET place = 2",
    "UPDATE uploads SET verdict = NULL",
    "UPDATE texts SET body = CAST(CAST(body AS TEXT) || 'x' AS BLOB) WHERE path LIKE '%/Packages'",
    "UPDATE dates SET moment = moment + 1",
    "UPDATE items SET version = '1.0-2'",
    "DELETE FROM files",
    "DROP TABLE dates",
    "ALTER TABLE texts RENAME COLUMN body TO bytes",
]
# What a file of one layout may have that makes it no archive, by statements.
ONE_OFF = {1: ["UPDATE arrivals SET body = x'616264' WHERE id = 2", "UPDATE files SET size = 4"], 2: ["UPDATE pieces SET bytes = x'616264' WHERE body = 2", "UPDATE bodies SET size = 4 WHERE id = 2", "DELETE FROM pieces WHERE body = 2"]}


@needs_strict_tables
class Migrations(Words):
    """An older file in a folder of its own, and a folder for what is made."""

    def setUp(self):
        super().setUp()
        os.mkdir(f"{self.folder}/old")
        self.old, self.db = f"{self.folder}/old/old.db", f"{self.folder}/a.db"

    def make(self, layout, **words):
        """An older file anew."""
        for name in os.listdir(f"{self.folder}/old"):
            os.unlink(f"{self.folder}/old/{name}")
        return older.archive(**words).make(layout, self.old)

    def clear(self):
        """Takes away what was made."""
        for it in pathlib.Path(self.folder).iterdir():
            if it.is_dir() and it.name != "old":
                shutil.rmtree(it)
            elif it.name != "old":
                it.unlink()

    def conf(self, text):
        """Writes a configuration, and answers its path."""
        path = pathlib.Path(self.folder, "new.conf")
        path.write_text(text, encoding="ascii")
        return str(path)

    def held(self):
        """All files beside the older file, byte for byte."""
        return {it.name: it.read_bytes() for it in pathlib.Path(self.folder, "old").iterdir()}

    def migrate(self, text=BOX, at=MOVED, old=None, db=None):
        """The answer of a migration, which has to leave the older file and the files beside it as they are."""
        before = self.held()
        answer = self.ran("migrate", "--from", old or self.old, "--db", db or self.db, "--at", str(at), self.conf(text))
        self.assertEqual(self.held(), before)
        return answer

    def printed(self, word, *words, status=0):
        answer = self.ran(word, "--db", self.db, *words)
        self.assertEqual((answer[0], answer[2]), (status, ""))
        return answer[1]

    def expect(self, archive):
        """Looks whether the new archive shows what the older one did."""
        self.assertEqual(self.printed("configuration"), archive.configuration)
        for suite in archive.suites:
            for path, text in suite.texts().items():
                self.assertEqual(self.printed("show", path), text.decode())
        for path, body in archive.pool.items():
            self.assertEqual(self.printed("show", path), body.decode())
        self.assertEqual(self.printed("verdicts"), f"accepted {NAMES[0]}\n")

    def rows(self, query):
        with contextlib.closing(sqlite3.connect(self.db)) as held:
            return held.execute(query).fetchall()


class Made(Migrations):
    """What is made from an older archive."""

    def test_it_shows_what_it_showed(self):
        for layout in LAYOUTS:
            for is_pair in (False, True):
                with self.subTest(layout=layout, is_pair=is_pair):
                    self.clear()
                    self.make(layout, is_pair=is_pair)
                    archive = older.archive(is_pair=is_pair)
                    self.assertEqual(self.migrate(archive.configuration), DONE)
                    self.expect(archive)
                    self.assertEqual(self.printed("waiting", "--at", str(MOVED)), "")
                    self.assertEqual(self.printed("run", "--at", str(RUN + 1)), "")
                    self.expect(archive)

    def test_it_is_a_database_of_the_present_layout(self):
        for layout in LAYOUTS:
            with self.subTest(layout):
                self.clear()
                self.make(layout, more=[older.waiting()])
                self.assertEqual(self.migrate(), DONE)
                self.assertEqual(self.rows("PRAGMA integrity_check"), [("ok",)])
                self.assertEqual(self.rows("PRAGMA foreign_key_check"), [])
                self.assertEqual(self.rows("SELECT version, CAST(configuration AS TEXT) FROM meta"), [(3, BOX)])
                self.assertEqual(self.rows("SELECT DISTINCT moment FROM arrivals"), [(MOVED,)])
                self.assertEqual(self.rows("SELECT moment FROM dates"), [(RUN,)])
                self.assertEqual(self.rows("SELECT name FROM arrivals ORDER BY id")[:3], [(it,) for it in older.hello()])
                self.assertEqual(self.rows("SELECT DISTINCT u.name FROM wants w JOIN uploads u ON u.id = w.upload"), [(older.waiting()[0].name,)])
                self.assertEqual(self.rows("SELECT count(*) FROM sqlite_master WHERE name LIKE '%_by_body'"), [(2,)])
                self.expect(older.archive())

    def test_it_goes_on(self):
        for layout in LAYOUTS:
            with self.subTest(layout):
                self.clear()
                self.make(layout, more=[older.waiting()])
                self.assertEqual(self.migrate(), DONE)
                name, files = older.waiting()[0].name, uploads.upload_of(older.SMALL)
                self.assertEqual(self.printed("waiting", "--at", str(MOVED)), f"{len(files) - 1} {name}\n")
                self.assertEqual(self.printed("put", "--at", str(RUN), *(f"{DATA}/{it}" for it in NAMES)), "".join(f"again {it}\n" for it in NAMES))
                paths = uploads.write(f"{self.folder}/small", files)
                told = self.printed("put", "--at", str(RUN), *paths)
                self.assertEqual(sorted(told.split("\n"))[1:], sorted([f"again {name}", *(f"new {it}" for it in files if it != name)]))
                self.assertEqual(self.printed("run", "--at", str(RUN + 1)), f"accepted {name}\n")
                text = self.printed("show", "dists/box/main/binary-amd64/Packages")
                self.assertEqual(re.findall("^Package: (.*)$", text, re.M), ["hello", "small"])
                self.assertEqual(self.printed("clean", "--at", str(RUN + 1)), "0\n")
                self.assertEqual(self.printed("remove", "--at", str(RUN + 2), "box", "hello"), "1\n")

    def test_a_long_body(self):
        """One of several pieces, which stands in the pool."""
        for layout in LAYOUTS:
            with self.subTest(layout):
                self.clear()
                upload, arrived = older.waiting()
                long = bytes(range(256)) * 1000
                self.make(layout, more=[(upload, {**arrived, "long.deb": long})])
                self.assertEqual(self.migrate(), DONE)
                self.assertEqual(self.rows("SELECT length(bytes) FROM pieces WHERE body = (SELECT body FROM arrivals WHERE name = 'long.deb') ORDER BY number"), [(65_536,)] * 3 + [(59_392,)])
                self.expect(older.archive())

    def test_arrivals_are_as_of_the_moment(self):
        for layout in LAYOUTS:
            with self.subTest(layout):
                self.clear()
                self.make(layout, more=[older.waiting()])
                self.assertEqual(self.migrate(f"{BOX}KeepDays: 1\n"), DONE)
                self.assertNotEqual(self.printed("waiting", "--at", str(GONE - 1)), "")
                self.assertEqual(self.printed("waiting", "--at", str(GONE)), "")

    def test_a_body_that_is_not_whole_is_passed_over(self):
        self.make(2)
        self.change("INSERT INTO bodies (id) VALUES (9); INSERT INTO pieces VALUES (9, 1, x'6869')")
        self.assertEqual(self.migrate(), DONE)
        self.expect(older.archive())
        self.assertEqual(self.rows("SELECT count(*) FROM bodies"), [(3,)])

    def change(self, statements):
        with contextlib.closing(sqlite3.connect(self.old)) as held, held:
            held.executescript(statements)


class Configurations(Migrations):
    def test_days_may_differ(self):
        for layout in LAYOUTS:
            for text in (f"{BOX}KeepDays: 1\n", f"{BOX}ValidDays: 7\n", f"{BOX}ValidDays: 7\nKeepDays: 30\n"):
                with self.subTest(layout=layout, text=text):
                    self.clear()
                    self.make(layout)
                    self.assertEqual(self.migrate(text), DONE)
                    self.assertEqual(self.printed("configuration"), text)
                    self.assertEqual("Valid-Until:" in self.printed("show", "dists/box/Release"), "ValidDays" in text)

    def test_days_of_the_older_one_are_passed_over(self):
        for layout in LAYOUTS:
            with self.subTest(layout):
                self.clear()
                self.make(layout, configuration=f"{BOX}KeepDays: many\nValidDays: 7\n")
                self.assertEqual(self.migrate(), DONE)
                self.expect(older.archive())

    def test_the_spelling_may_differ(self):
        """Values count, not how they stand there."""
        slip = "archive: passed over Note in box, did you mean Suite\n"
        for text, told in (("Components:main\nNote: passed over\nArchitectures:\n amd64\n source\nCodename: box", slip), (f"\n\n{BOX}\n\n", "")):
            with self.subTest(text):
                self.clear()
                self.make(1)
                self.assertEqual(self.migrate(text), (0, "", told))
                self.assertEqual(self.printed("show", "dists/box/Release"), older.archive().suites[0].release().decode())

    def test_nothing_else_may_differ(self):
        others = [
            BOX.replace("main", "main extra"),
            BOX.replace("amd64 source", "source amd64"),
            BOX.replace("amd64", "amd64 arm64"),
            BOX.replace("box", "bax"),
            f"{BOX}AlsoAcceptFor: stable\n",
            f"{BOX}Uploaders:\n hello by Ann\n",
            PAIR,
        ]
        for layout in LAYOUTS:
            for text in others:
                with self.subTest(layout=layout, text=text):
                    self.clear()
                    self.make(layout)
                    self.assertEqual(self.migrate(text), K5)
                    self.assertEqual(sorted(os.listdir(self.folder)), ["new.conf", "old"])

    def test_the_order_of_suites(self):
        for layout in LAYOUTS:
            with self.subTest(layout):
                self.clear()
                self.make(layout, is_pair=True)
                self.assertEqual(self.migrate(f"{LAB}\n{BOX}"), K5)
                self.assertEqual(self.migrate(BOX), K5)
                self.assertEqual(self.migrate(PAIR), DONE)


class Refused(Migrations):
    def test_the_order_of_what_is_refused(self):
        """The words; the file of the configuration; its text; the older file; the new one; what differs."""
        self.make(1)
        pathlib.Path(self.folder, "taken.db").write_bytes(b"This is no database, and it is as long as the first page of one.")
        words = ["migrate", "--from", "none.db", "--db", "taken.db", "--at"]
        self.assertEqual(self.ran(*words, "4102444800", "none.conf")[0], 2)
        self.assertEqual(self.ran(*words, "0", "none.conf"), (1, "", "archive: cannot read none.conf\n"))
        self.assertEqual(self.ran(*words, "0", self.conf("Codename: box\n")), (1, "", "archive: F2\n"))
        self.assertEqual(self.ran(*words, "0", self.conf(PAIR)), K4)
        words[2] = self.old
        self.assertEqual(self.ran(*words, "0", self.conf(PAIR)), K2)
        words[4] = self.db
        self.assertEqual(self.ran(*words, "0", self.conf(PAIR)), K5)
        self.assertFalse(os.path.exists(self.db))
        self.assertEqual(self.ran(*words, "0", self.conf(BOX)), DONE)

    def test_no_older_file(self):
        for old, answer in (("none.db", K4), ("no/such/folder/a.db", K2), (".", K2), ("", K2), (":memory:", K2), ("file:old/old.db", K2)):
            with self.subTest(old):
                self.make(1)
                self.assertEqual(self.ran("migrate", "--from", old, "--db", self.db, "--at", "0", self.conf(BOX)), answer)
                self.assertEqual(sorted(os.listdir(self.folder)), ["new.conf", "old"])

    def test_what_is_no_older_archive(self):
        for bytes_, answer in ((b"", K4), (b"This is no database.", K2)):
            with self.subTest(bytes_):
                pathlib.Path(self.old).write_bytes(bytes_)
                self.assertEqual(self.migrate(), answer)
                self.assertFalse(os.path.exists(self.db))
                os.unlink(self.old)
        for layout in LAYOUTS:
            for change in CHANGES + ONE_OFF[layout]:
                with self.subTest(layout=layout, change=change):
                    self.make(layout)
                    with contextlib.closing(sqlite3.connect(self.old)) as held, held:
                        self.assertNotEqual(held.execute(change).rowcount, 0)
                    self.assertEqual(self.migrate(), K4)
                    self.assertFalse(os.path.exists(self.db))

    def test_an_archive_of_the_present_layout(self):
        self.assertEqual(self.ran("init", "--db", self.old, "--at", "0", self.conf(BOX)), DONE)
        self.assertEqual(self.migrate(), K4)
        with contextlib.closing(sqlite3.connect(self.old)) as held, held:
            held.execute("UPDATE meta SET version = 4")
        self.assertEqual(self.migrate(), K4)
        self.assertEqual(self.ran("verdicts", "--db", self.old), (1, "", f"{K4[2]}archive: an archive of layout 4, which a later program made\n"))

    def test_each_word_tells_of_a_migration(self):
        for layout in LAYOUTS:
            self.make(layout)
            self.assertEqual(self.ran("verdicts", "--db", self.old), (1, "", f"{K4[2]}archive: an archive of layout {layout}: archive migrate reads it\n"))

    def test_one_file(self):
        """Both paths lead to the older file, by whatever names."""
        self.make(1)
        self.assertEqual(self.migrate(db=self.old), K4)
        self.assertEqual(self.migrate(db=f"{self.folder}/old/../old/old.db"), K4)
        os.symlink(self.old, self.db)
        self.assertEqual(self.migrate(), K4)
        self.assertEqual(self.migrate(old=self.db, db=self.old), K4)
        os.unlink(self.db)
        os.link(self.old, self.db)
        self.assertEqual(self.migrate(), K4)

    def test_a_file_beside_the_older_one(self):
        self.make(1)
        for end in ("-wal", "-journal", "-shm"):
            with self.subTest(end):
                pathlib.Path(self.old + end).touch()
                self.assertEqual(self.migrate(db=self.old + end), K4)
                os.unlink(self.old + end)

    def test_a_database_that_is_taken(self):
        self.make(1)
        self.assertEqual(self.migrate(), DONE)
        for text in (BOX, PAIR):
            self.assertEqual(self.migrate(text), K4)
        self.expect(older.archive())
        for statement in ("CREATE TABLE notes (t TEXT)", "CREATE VIEW one AS SELECT 1"):
            with self.subTest(statement):
                self.clear()
                with contextlib.closing(sqlite3.connect(self.db)) as held:
                    held.execute(statement)
                before = pathlib.Path(self.db).read_bytes()
                self.assertEqual(self.migrate(), K4)
                self.assertEqual(self.migrate(PAIR), K4)
                self.assertEqual(pathlib.Path(self.db).read_bytes(), before)

    def test_a_database_that_is_empty(self):
        self.make(2)
        pathlib.Path(self.db).touch()
        self.assertEqual(self.migrate(PAIR), K5)
        self.assertEqual(os.path.getsize(self.db), 0)
        self.assertEqual(self.migrate(), DONE)
        self.expect(older.archive())
        self.clear()
        with contextlib.closing(sqlite3.connect(self.db)) as held:
            held.execute("CREATE TABLE notes (t TEXT)")
            held.execute("DROP TABLE notes")
        self.assertEqual(self.migrate(PAIR), K5)
        self.assertEqual(self.migrate(), DONE)
        self.expect(older.archive())


class Files(Migrations):
    """Older files that others hold, own or left."""

    def logged(self):
        """An older file of which all is in its log."""
        self.make(2)
        held = sqlite3.connect(self.old)
        self.assertEqual(held.execute("PRAGMA journal_mode = wal").fetchall(), [("wal",)])
        held.execute("UPDATE dates SET moment = moment")
        held.execute("UPDATE meta SET version = 1")
        held.commit()
        held.execute("UPDATE meta SET version = 2")
        held.commit()
        for end in ("", "-wal"):
            shutil.copyfile(self.old + end, f"{self.folder}/kept{end}")
        held.close()
        for end in ("", "-wal"):
            os.replace(f"{self.folder}/kept{end}", self.old + end)
        self.assertGreater(os.path.getsize(f"{self.old}-wal"), 0)

    def test_a_log_is_read(self):
        self.logged()
        self.assertEqual(self.migrate(), DONE)
        self.expect(older.archive())

    def test_a_link_to_the_file(self):
        self.logged()
        os.symlink("old/old.db", f"{self.folder}/link.db")
        self.assertEqual(self.migrate(old=f"{self.folder}/link.db"), DONE)
        self.expect(older.archive())

    def test_a_file_with_two_names(self):
        """Its log may lie beside the other name."""
        self.make(1)
        os.link(self.old, f"{self.folder}/other.db")
        self.assertEqual(self.migrate(), K2)

    def test_a_change_that_was_cut_short(self):
        """SQLite left a journal, by which it takes the change back."""
        self.make(1)
        pathlib.Path(f"{self.old}-journal").write_bytes(b"\xd9\xd5\x05\xf9\x20\xa1\x63\xd7")
        self.assertEqual(self.migrate(), K2)
        pathlib.Path(f"{self.old}-journal").write_bytes(bytes(8))
        self.assertEqual(self.migrate(), DONE)

    def test_a_holder_is_waited_for(self):
        self.make(1)
        words = ["migrate", "--from", self.old, "--db", self.db, "--at", "0", self.conf(BOX)]
        with open(self.old, "r+b") as held:
            fcntl.lockf(held, fcntl.LOCK_EX, 512, 1 << 30)
            with subprocess.Popen([PROGRAM, *words]) as process:
                with self.assertRaises(subprocess.TimeoutExpired):
                    process.wait(timeout=1)
                self.assertFalse(os.path.exists(self.db))
                fcntl.lockf(held, fcntl.LOCK_UN, 512, 1 << 30)
                self.assertEqual(process.wait(timeout=LONG), 0)
        self.expect(older.archive())

    @needs_root
    def test_a_file_of_another_owner(self):
        """It need not be writable, nor its folder; but it has to be readable."""
        nobody = 65_534
        self.make(1)
        os.chmod(self.folder, 0o755)
        os.chmod(self.old, 0o444)
        os.mkdir(f"{self.folder}/own")
        os.chown(f"{self.folder}/own", nobody, nobody)
        # The program may be in a place that this user can't reach.
        program = shutil.copy(PROGRAM, f"{self.folder}/archive")
        words = [program, "migrate", "--from", self.old, "--db", f"{self.folder}/own/a.db", "--at", "0", self.conf(BOX)]
        os.chmod(program, 0o555)
        os.chmod(words[-1], 0o444)
        for mode, answer in ((0o400, K2), (0o444, DONE)):
            os.chmod(self.old, mode)
            ran = subprocess.run(words, user=nobody, group=nobody, extra_groups=[], capture_output=True, text=True, check=False, timeout=LONG)
            self.assertEqual((ran.returncode, ran.stdout, ran.stderr), answer)
            self.assertEqual(os.listdir(f"{self.folder}/old"), ["old.db"])
        self.assertTrue(os.path.exists(f"{self.folder}/own/a.db"))


class Kills(Migrations):
    """`migrate` that is killed by SIGKILL."""

    def words(self):
        return [PROGRAM, "migrate", "--from", self.old, "--db", self.db, "--at", str(MOVED), self.conf(BOX)]

    def left(self):
        """Looks at what a kill left, and whether the command may be given again. Says whether it had been done."""
        status, _, errors = self.ran("verdicts", "--db", self.db)
        self.assertIn((status, errors), [(0, ""), K4[::2]])
        self.assertEqual(self.migrate(), K4 if status == 0 else DONE)
        self.expect(older.archive())
        return status == 0

    def calls(self):
        """The calls of a command that is not killed, each as its name and how many of this name there are up to it."""
        trace, seen = f"{self.folder}/trace", dict.fromkeys(CALLS, 0)
        subprocess.run(["strace", "-f", "-qq", "-o", trace, "-e", f"trace={','.join(CALLS)}", *self.words()], check=True, timeout=LONG)
        with open(trace, encoding="utf-8") as it:
            for name in re.findall(r"(?m)^(?:\d+ +)?(\w+)\(", it.read()):
                seen[name] += 1
                yield name, seen[name]

    @needs("strace")
    def test_at_each_call(self):
        self.make(2, more=[older.waiting()])
        before, done = self.held(), []
        for name, number in list(self.calls()):
            with self.subTest(call=name, number=number):
                self.clear()
                inject = ["-e", f"trace={name}", "-e", f"inject={name}:signal=SIGKILL:when={number}"]
                subprocess.run(["strace", "-f", "-qq", "-o", os.devnull, *inject, *self.words()], check=False, timeout=LONG)
                self.assertEqual(self.held(), before)
                done.append(self.left())
        self.assertIn(False, done)
        print(f"{len(done)} calls of `migrate` were killed one by one; behind {sum(done)} it had been done.")

    def test_at_times(self):
        self.make(1, more=[older.waiting()])
        before, done = self.held(), []
        start = time.monotonic()
        subprocess.run(self.words(), check=True, timeout=LONG)
        whole = time.monotonic() - start
        for part in range(KILLS):
            self.clear()
            with subprocess.Popen(self.words()) as process:
                with contextlib.suppress(subprocess.TimeoutExpired):
                    process.wait(timeout=whole * (part + 1) / KILLS)
                process.kill()
            self.assertEqual(self.held(), before)
            done.append(self.left())
        print(f"`migrate` was killed at {KILLS} times of {whole * 1000:.0f} ms; behind {sum(done)} it had been done.")


if __name__ == "__main__":
    main()
