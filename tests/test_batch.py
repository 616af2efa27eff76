"""Tests of lists of commands. What a list of a thousand lines prints, and what each index is after it, is what the same commands give one
by one, each over an opening of its own: some of them are refused, and some files can't be read. Other tests are of where a list ends that
finds no memory or no room: over files that may not grow, and over a file system that is nearly full, which root may mount; if that is not
there the test says that it was skipped. The program is that of program.py."""
import functools
import os
import random
import resource
import shutil
import subprocess
import tempfile
import unittest

from tests.program import PROGRAM, mounted
from tests.wants import main, needs_file
from uploads import uploads

# The moment of all commands, in seconds since 1970-01-01 00:00:00 UTC.
MOMENT = "1467436850"

# The number of commands of the list, and the number of uploads whose files it delivers.
LINES, UPLOADS = 1000, 20

# How often each command is given, on average, of a hundred.
SHARES = {"put": 54, "promote": 2, "other": 4, "run": 8, "copy": 12, "remove": 6, "clean": 4, "waiting": 6, "verdicts": 4}

# The word of a list for a number that a command prints.
DONE = {"copy": "copied", "remove": "removed", "clean": "cleaned"}

# How lines begin that the list has to print.
WORDS = ["new ", "again ", "accepted ", "copied 1 ", "copied 0 ", "removed 1 ", "cleaned 0"]
WORDS += [f"refused {fault} " for fault in ("Q1", "Q3 C1 P8", "Q6", "Q7", "Q8", "Q11")]

INDICES = [f"dists/{suite}/{name}" for suite in ("box", "lab") for name in ("Release", "main/binary-amd64/Packages", "main/source/Sources")]


# The number of steps of memory or of room below what a list needs that are tried, and the number of bytes of a step of
# each.
STEPS, MEMORY_STEP, ROOM_STEP = 24, 32_768, 8192


def limit(resource_, most):
    """Limits a resource of this process to this amount. Python ignores the signal for a file that may not grow, so that only the call
    reports it."""
    resource.setrlimit(resource_, (most, resource.getrlimit(resource_)[1]))


def least(is_enough, most):
    """The least number from 1 to `most` that is enough; each greater one has to be enough, too."""
    too_little = 0
    while most - too_little > 1:
        middle = (too_little + most) // 2
        too_little, most = (too_little, middle) if is_enough(middle) else (middle, most)
    return most


@needs_file(PROGRAM)
class Folder(unittest.TestCase):
    """A folder that lines are run in."""

    def setUp(self):
        room = tempfile.TemporaryDirectory()
        self.addCleanup(room.cleanup)
        self.folder = room.name
        self.write("box.conf", uploads.CONFIGURATION)

    def write(self, name, text):
        with open(f"{self.folder}/{name}", "w", encoding="utf-8") as it:
            it.write(text)

    def ran(self, *words, **more):
        """Runs a line in the folder. Answers the exit status, and what is printed on both outputs."""
        ran = subprocess.run([PROGRAM, *words], cwd=self.folder, capture_output=True, check=False, timeout=600, **more)
        return ran.returncode, ran.stdout.decode(), ran.stderr.decode()

    def made(self, db):
        """Makes an archive in a database file."""
        self.assertEqual(self.ran("init", "--db", db, "--at", "0", "box.conf"), (0, "", ""))


class Batch(Folder):
    def setUp(self):
        super().setUp()
        made = uploads.make(f"{self.folder}/all uploads", UPLOADS, source_every=4)
        self.paths = [os.path.relpath(path, self.folder) for upload in made for path in upload]
        self.write(".hid", "abc")
        self.write("bad.changes", "")

    def commands(self):
        """The commands of the list: their words are drawn, the same each time."""
        drawn = random.Random(1)
        others = [".hid", "bad.changes", "no such file", "all uploads"]
        for word in drawn.choices(list(SHARES), SHARES.values(), k=LINES):
            source = uploads.name_of(drawn.randrange(UPLOADS + 4))
            suites = drawn.choices(["box", "lab", "moon"], [5, 4, 1], k=2)
            yield {
                "put": ["put", drawn.choice(self.paths)],
                "other": ["put", drawn.choice(others)],
                "copy": ["copy", *suites, source],
                "promote": ["promote", *suites],
                "remove": ["remove", suites[0], source],
            }.get(word, [word])

    def answer(self, db, word, *words):
        """What a command prints that is given by itself, as a list prints it, on both outputs."""
        moment = [] if word == "verdicts" else ["--at", MOMENT]
        _, printed, told = self.ran(word, "--db", db, *moment, *words)
        if told and word != "put":
            fault = told.removeprefix("archive: ").rstrip("\n")
            return " ".join(["refused", fault, *words]) + "\n", ""
        if word not in DONE:
            return printed, told
        return " ".join([DONE[word], printed.rstrip("\n"), *words[-1:]]) + "\n", ""

    def test_a_list_gives_what_its_commands_give_one_by_one(self):
        commands = list(self.commands())
        for db in ("one.db", "list.db"):
            self.made(db)
        answers = [self.answer("one.db", *words) for words in commands]
        wanted, told = ("".join(it) for it in zip(*answers))
        for word in WORDS:
            self.assertIn(f"\n{word}", wanted)
        self.assertIn("archive: cannot read no such file\n", told)
        self.write("list", "# A list.\n\n" + "\n".join(" ".join(words) for words in commands))
        status, printed, errors = self.ran("batch", "--db", "list.db", "--at", MOMENT, "list")
        self.assertEqual(printed.splitlines(), wanted.splitlines())
        self.assertEqual((status, errors), (1, told))
        for path in INDICES:
            with self.subTest(path):
                self.assertEqual(self.ran("show", "--db", "list.db", path), self.ran("show", "--db", "one.db", path))

    def test_a_file_that_finds_no_room_ends_the_list(self):
        self.made("full.db")
        for name, size in (("one.bin", 1), ("large.bin", 2_000_000), ("two.bin", 2)):
            self.write(name, "x" * size)
        self.write("list", "put one.bin\nput large.bin\nput two.bin\nrun\n")
        words = ["batch", "--db", "full.db", "--at", MOMENT, "list"]
        little = functools.partial(limit, resource.RLIMIT_FSIZE, 1_000_000)
        ended = self.ran(*words, preexec_fn=little, restore_signals=False)
        self.assertEqual(ended, (3, "new one.bin\n", "archive: Q4 K2\n"))
        status, printed, told = self.ran(*words)
        self.assertEqual((status, told), (0, ""))
        self.assertRegex(printed, r"\Aagain one\.bin\nnew large\.bin\n(?:new|again) two\.bin\n\Z")


class Moving(Folder):
    """A list that copies a package to another suite and then takes it out of the first: wherever it ends, a suite shows the package, and
    given again it is done. What the copy writes is far more than what the removal does."""

    NAME = uploads.name_of(0)

    def setUp(self):
        super().setUp()
        self.write("move.list", f"copy box lab {self.NAME}\nremove box {self.NAME}\n")
        self.made("first.db")
        [paths] = uploads.make(f"{self.folder}/upload", 1, description=60_000)
        self.ran("put", "--db", "first.db", "--at", "0", *paths)
        self.assertEqual(self.ran("run", "--db", "first.db", "--at", "0")[0], 0)

    def start(self, folder):
        """A copy of the archive in which nothing is moved."""
        db = f"{folder}/move.db"
        for name in (db, f"{db}-wal"):
            if os.path.exists(name):
                os.unlink(name)
        shutil.copy(f"{self.folder}/first.db", db)
        return db

    def moved(self, db, **more):
        return self.ran("batch", "--db", db, "--at", MOMENT, "move.list", **more)

    def shown(self, db):
        """The suites that show the package."""
        texts = {suite: self.ran("show", "--db", db, f"dists/{suite}/main/binary-amd64/Packages")[1] for suite in ("box", "lab")}
        return [suite for suite, text in texts.items() if f"Package: {self.NAME}\n" in text]

    def expect(self, moved, db, free, most, failed):
        """Expects that nothing is lost, however little there is. `moved` makes the list over a new archive with this number of steps of
        what it needs; `free` lets the archive have all; the end `failed` has to come if the copy found too little."""
        ends = set()
        enough = least(lambda steps: moved(steps)[0] == 0, most)
        for steps in range(max(1, enough - STEPS), enough):
            with self.subTest(steps=steps):
                ends.add(moved(steps))
                free()
                self.assertIn(self.shown(db), (["box"], ["lab"], ["box", "lab"]))
                self.assertIn(self.moved(db)[0], (0, 1))
                self.assertEqual(self.shown(db), ["lab"])
        self.assertIn((3, "", failed), ends)

    def test_with_little_memory(self):
        def moved(steps):
            return self.moved(self.start(self.folder), preexec_fn=functools.partial(limit, resource.RLIMIT_AS, steps * MEMORY_STEP))

        self.expect(moved, f"{self.folder}/move.db", lambda: None, 32_768, "archive: Q0\n")

    def test_over_files_that_may_not_grow(self):
        def moved(steps):
            little = functools.partial(limit, resource.RLIMIT_FSIZE, steps * ROOM_STEP)
            return self.moved(self.start(self.folder), preexec_fn=little, restore_signals=False)

        self.expect(moved, f"{self.folder}/move.db", lambda: None, 512, "archive: Q4 K2\n")

    def test_over_a_disk_that_is_nearly_full(self):
        with mounted(8_000_000) as folder:
            filler = f"{folder}/filler"

            def free():
                if os.path.exists(filler):
                    os.unlink(filler)

            def moved(steps):
                free()
                db = self.start(folder)
                disk = os.statvfs(folder)
                with open(filler, "wb") as it:
                    it.write(b"." * (disk.f_bavail * disk.f_bsize - steps * ROOM_STEP))
                return self.moved(db)

            self.expect(moved, f"{folder}/move.db", free, 512, "archive: Q4 K2\n")


if __name__ == "__main__":
    main()
