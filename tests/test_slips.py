"""Tests of what commands say of slips that they do not refuse: a moment before the date of a suite, and fields that a configuration does not
know. Each is a line on standard error, and nothing else differs. The program is that of program.py."""
import os
import pathlib
import subprocess
import tempfile

from tests import older
from tests.program import DATA, LONG, MOMENT, NAMES, PROGRAM, Lines, Serving
from tests.wants import main, needs_strict_tables

BOX = "Codename: box\nArchitectures: amd64 source\nComponents: main\n"
FOX = "Codename: fox\nArchitectures: amd64\nComponents: main\n"
SLIP = f"{BOX}Uploader:\n * by Ann <ann@example.org>\n\n{FOX}Colour: red\n"
PASSED = "archive: passed over Uploader in box, did you mean Uploaders\narchive: passed over Colour in fox\n"
FILES = [f"{DATA}/{name}" for name in NAMES]


def ran(*words, **streams):
    """The status of a line of the program, and what comes to both outputs."""
    streams = {"stdout": subprocess.PIPE, "stderr": subprocess.PIPE, **streams}
    done = subprocess.run([PROGRAM, *words], stdin=subprocess.DEVNULL, text=True, check=False, timeout=LONG, **streams)
    return done.returncode, done.stdout, done.stderr


class Slips(Lines):
    """Commands over copies of one database, in a folder of their own."""

    body = b""

    def setUp(self):
        room = tempfile.TemporaryDirectory()
        self.addCleanup(room.cleanup)
        self.folder, self.db = room.name, f"{room.name}/box.db"
        if not self.body:
            self.make()
            type(self).body = pathlib.Path(self.db).read_bytes()
        pathlib.Path(self.db).write_bytes(self.body)

    def make(self):
        """Makes the database."""
        self.line(0, "init", self.db, "--at", "0", self.conf(BOX))

    def conf(self, text):
        """A file with the text of a configuration."""
        path = f"{self.folder}/some.conf"
        with open(path, "w", encoding="utf-8") as it:
            it.write(text)
        return path


class PassedOver(Slips):
    """Fields that are passed over."""

    def test_done(self):
        conf = self.conf(SLIP)
        self.assertEqual(ran("init", "--db", f"{self.folder}/new.db", "--at", "0", conf), (0, "", PASSED))
        self.assertEqual(ran("configure", "--db", self.db, "--at", "0", conf), (0, "", PASSED))
        self.assertEqual(ran("configuration", "--db", self.db), (0, SLIP, ""))

    @needs_strict_tables
    def test_migrate(self):
        old = f"{self.folder}/old.db"
        older.archive().make(2, old)
        conf = self.conf(f"{older.BOX}Uploader:\n * by Ann <ann@example.org>\n")
        done = ran("migrate", "--from", old, "--db", f"{self.folder}/new.db", "--at", "0", conf)
        self.assertEqual(done, (0, "", "archive: passed over Uploader in box, did you mean Uploaders\n"))

    def test_refused(self):
        """Before F2 they are named, since one of them may be what is lacking. Before another refusal they are not."""
        rows = [
            ("Codenam: box\nArchitectures: amd64\nComponents: main\n", "passed over Codenam in paragraph 1, did you mean Codename", "F2"),
            (f"{BOX}\n{FOX.replace('Components', 'Component')}", "passed over Component in fox, did you mean Components", "F2"),
            (f"{BOX}Uploader: x\nKeepDays: 0\n", None, "F3"),
            ("Codenam: box\nCodenam: box\n", None, "F1 P7:2"),
        ]
        for text, slip, code in rows:
            conf = self.conf(text)
            wanted = "".join(f"archive: {it}\n" for it in (slip, code) if it)
            self.assertEqual(ran("check", conf), (1, "", wanted))
            self.assertEqual(ran("init", "--db", f"{self.folder}/new.db", "--at", "0", conf), (1, "", wanted))
            self.assertEqual(ran("configure", "--db", self.db, "--at", "0", conf), (1, "", wanted))
            self.assertEqual(ran("migrate", "--from", self.db, "--db", f"{self.folder}/new.db", "--at", "0", conf), (1, "", wanted))
        self.assertFalse(os.path.exists(f"{self.folder}/new.db"))

    def test_not_done(self):
        """What is refused for another reason names none."""
        conf = self.conf(SLIP)
        self.assertEqual(ran("init", "--db", self.db, "--at", "0", conf), (1, "", "archive: K4\n"))
        self.line(0, "put", self.db, "--at", "0", *FILES)
        self.line(0, "run", self.db, "--at", "0")
        conf = self.conf(SLIP.replace("main", "free"))
        self.assertEqual(ran("configure", "--db", self.db, "--at", "0", conf), (1, "", "archive: K5\n"))

    def test_nowhere_to_say_it(self):
        """The status is that of what was done if no line can be written."""
        with open("/dev/full", "wb") as full:
            self.assertEqual(ran("configure", "--db", self.db, "--at", "0", self.conf(SLIP), stderr=full), (0, "", None))
        self.assertEqual(ran("configuration", "--db", self.db), (0, SLIP, ""))


class Early(Slips):
    """Moments before the date of a suite."""

    def make(self):
        self.line(0, "init", self.db, "--at", "1000", self.conf(f"{BOX}\n{FOX}"))
        self.line(0, "put", self.db, "--at", MOMENT, *FILES)
        self.line(0, "run", self.db, "--at", MOMENT)

    def listed(self, line):
        """A list of one command."""
        path = f"{self.folder}/list"
        with open(path, "w", encoding="ascii") as it:
            it.write(f"{line}\n")
        return path

    def lines(self, at, **dates):
        """The lines on a moment, and on the dates of these suites."""
        return "".join(f"archive: the moment {at} lies before the date of {suite}, which is {date}\n" for suite, date in dates.items())

    def test_commands(self):
        """Each command that may change something says it, for each suite, before it does anything."""
        rows = [
            ("put", lambda: FILES[:1], f"again {NAMES[0]}\n"),
            ("run", list, ""),
            ("copy", lambda: ["box", "fox", "hello"], "1\n"),
            ("promote", lambda: ["box", "fox"], "1 hello\n"),
            ("remove", lambda: ["box", "hello"], "1\n"),
            ("clean", list, "0\n"),
            ("batch", lambda: [self.listed("run")], ""),
            ("configure", lambda: [self.conf(f"{BOX}\n{FOX}")], ""),
        ]
        for word, rest, printed in rows:
            for at, dates in (("999", {"box": MOMENT, "fox": 1000}), ("1000", {"box": MOMENT}), (MOMENT, {})):
                self.setUp()
                self.assertEqual(ran(word, "--db", self.db, "--at", at, *rest()), (0, printed, self.lines(at, **dates)), word)

    def test_refused(self):
        """It is said before a refusal, too."""
        one = self.lines(1000, box=MOMENT)
        self.assertEqual(ran("remove", "--db", self.db, "--at", "1000", "box", "none"), (1, "", f"{one}archive: Q11\n"))

    def test_what_only_reads(self):
        for word in ("waiting", "why"):
            self.assertEqual(ran(word, "--db", self.db, "--at", "0"), (0, "", ""))
        self.assertEqual(ran("list", "--db", self.db, "box")[::2], (0, ""))

    def test_nowhere_to_say_it(self):
        with open("/dev/full", "wb") as full:
            self.assertEqual(ran("remove", "--db", self.db, "--at", "0", "box", "hello", stderr=full), (0, "1\n", None))

    def test_serve(self):
        """It is said of the moment of the first connection, which a file of moments may make later."""
        with Serving(self.db, 1, at="1000") as serving:
            serving.answer(b"GET /waiting HTTP/1.1\r\n\r\n")
            self.assertEqual(serving.ended(), (0, "", self.lines(1000, box=MOMENT)))
        moments = f"{self.folder}/now"
        with open(moments, "w", encoding="ascii") as it:
            it.write(f"{MOMENT}\n")
        with Serving(self.db, 1, "--moments", moments, at="1000") as serving:
            serving.answer(b"GET /waiting HTTP/1.1\r\n\r\n")
            self.assertEqual(serving.ended(), (0, "", ""))


if __name__ == "__main__":
    main()
