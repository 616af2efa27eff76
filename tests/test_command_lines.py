"""Tests of command lines that name no archive, have words that are no text, hand in the database itself, or ask for help. The program is
that of program.py."""
import os
import re
import shutil
import sqlite3
import subprocess
import tempfile

from tests.program import DATA, LONG, NAMES, PROGRAM, ROOT, Lines
from tests.wants import main

# A configuration, which lies outside of the folders of the tests.
CONF = tempfile.NamedTemporaryFile(suffix=".conf")
CONF.write(b"Codename: box\nArchitectures: amd64 source\nComponents: main\n")
CONF.flush()

# The words of each command after its own.
COMMANDS = {
    "put": ["--db", "a.db", "--at", "0", f"{DATA}/{NAMES[1]}"],
    "run": ["--db", "a.db", "--at", "0"],
    "clean": ["--db", "a.db", "--at", "0"],
    "batch": ["--db", "a.db", "--at", "0", os.devnull],
    "copy": ["--db", "a.db", "--at", "0", "box", "lab", "hello"],
    "promote": ["--db", "a.db", "--at", "0", "box", "lab"],
    "remove": ["--db", "a.db", "--at", "0", "box", "hello"],
    "configure": ["--db", "a.db", "--at", "0", CONF.name],
    "show": ["--db", "a.db", "dists/box/Release"],
    "list": ["--db", "a.db", "box"],
    "waiting": ["--db", "a.db", "--at", "0"],
    "verdicts": ["--db", "a.db"],
    "why": ["--db", "a.db"],
    "status": ["--db", "a.db", "--at", "0"],
    "configuration": ["--db", "a.db"],
    "export": ["--db", "a.db", "www"],
    "serve": ["--db", "a.db", "--at", "0", "127.0.0.1:0", "1"],
}

# The words of each command's usage, after `archive`.
USAGES = {
    "try": "try <PATH>...",
    "compare": "compare <A> <B>",
    "check": "check <CONF>",
    "init": "init --db <FILE> --at <N> <CONF>",
    "put": "put --db <FILE> --at <N> <PATH>...",
    "run": "run --db <FILE> --at <N>",
    "clean": "clean --db <FILE> --at <N>",
    "batch": "batch --db <FILE> --at <N> <LIST>",
    "copy": "copy --db <FILE> --at <N> <FROM> <TO> <SOURCE>",
    "promote": "promote --db <FILE> --at <N> <FROM> <TO> [SOURCE]...",
    "remove": "remove --db <FILE> --at <N> <SUITE> <PACKAGE>",
    "configure": "configure --db <FILE> --at <N> <CONF>",
    "migrate": "migrate --from <FILE> --db <FILE> --at <N> <CONF>",
    "show": "show --db <FILE> <PATH>",
    "list": "list --db <FILE> [SUITE]",
    "waiting": "waiting --db <FILE> --at <N>",
    "verdicts": "verdicts --db <FILE>",
    "why": "why --db <FILE> [NAME]",
    "status": "status --db <FILE> --at <N>",
    "configuration": "configuration --db <FILE>",
    "export": "export --db <FILE> <DIR>",
    "serve": "serve --db <FILE> --at <N> <ADDRESS> <COUNT>",
}

# The options that each command may be given or not.
OPTIONS = {
    "run": ["--strict"],
    "batch": ["--strict"],
    "list": ["--json"],
    "waiting": ["--json"],
    "verdicts": ["--json"],
    "why": ["--at <N>", "--json"],
    "export": ["--at <N>", "--signed", "--unsigned", "--by-hash", "--key <NAME>"],
    "serve": ["--moments <MOMENTS>", "--log", "--refuse-origin", "--export <DIR>", "--signed", "--unsigned", "--by-hash", "--key <NAME>"],
}


class Words(Lines):
    def setUp(self):
        room = tempfile.TemporaryDirectory()
        self.addCleanup(room.cleanup)
        self.folder = room.name

    def ran(self, *words):
        """Runs a line in the folder. Answers the exit status, and what is printed on both outputs."""
        ran = subprocess.run([PROGRAM, *words], cwd=self.folder, capture_output=True, check=False, timeout=LONG)
        return ran.returncode, ran.stdout.decode(), ran.stderr.decode()


class NoArchive(Words):
    def test_a_file_that_is_not_there_is_not_made(self):
        for command, words in COMMANDS.items():
            with self.subTest(command):
                self.assertEqual(self.ran(command, *words), (1, "", "archive: K4\n"))
                self.assertEqual(os.listdir(self.folder), [])

    def test_an_empty_file_stays_as_it_is(self):
        path = f"{self.folder}/a.db"
        for command, words in COMMANDS.items():
            with self.subTest(command):
                open(path, "wb").close()
                self.assertEqual(self.ran(command, *words), (1, "", "archive: K4\n"))
                self.assertEqual(os.listdir(self.folder), ["a.db"])
                self.assertEqual(os.path.getsize(path), 0)

    def test_an_empty_file_by_a_symbolic_link_stays_as_it_is(self):
        open(f"{self.folder}/real.db", "wb").close()
        os.symlink("real.db", f"{self.folder}/a.db")
        for command, words in COMMANDS.items():
            with self.subTest(command):
                self.assertEqual(self.ran(command, *words), (1, "", "archive: K4\n"))
                self.assertEqual(sorted(os.listdir(self.folder)), ["a.db", "real.db"])
                self.assertEqual(os.path.getsize(f"{self.folder}/real.db"), 0)

    def test_a_link_that_leads_nowhere_stays_as_it_is(self):
        os.symlink("real.db", f"{self.folder}/a.db")
        self.assertEqual(self.ran("verdicts", "--db", "a.db"), (3, "", "archive: K2\n"))
        self.assertEqual(os.listdir(self.folder), ["a.db"])

    def test_an_archive_is_made_in_an_empty_file(self):
        open(f"{self.folder}/a.db", "wb").close()
        with open(f"{self.folder}/box.conf", "w", encoding="ascii") as it:
            it.write("Codename: box\nArchitectures: amd64 source\nComponents: main\n")
        self.assertEqual(self.ran("init", "--db", "a.db", "--at", "0", "box.conf"), (0, "", ""))
        self.assertEqual(self.ran("verdicts", "--db", "a.db"), (0, "", ""))


class NoText(Words):
    def test_words_that_are_not_utf_8(self):
        for words in (
            [b"\xff"],
            [b"verdicts", b"--db", b"a\xff.db"],
            [b"verdicts", b"--db=\xc3"],
            [b"put", b"--db", b"a.db", b"--at", b"0", b"a", b"\xed\xa0\x80"],
            [b"put", b"--db", b"a.db", b"--at", b"0", b"--", b"-\xfe"],
            [b"compare", b"1", b"\xc0\x80"],
            [b"--help", b"\xff"],
            [b"--version", b"\x80"],
            [b"serve", b"--db", b"a.db", b"--at", b"\xff", b"127.0.0.1:0", b"1"],
        ):
            with self.subTest(words):
                self.assertEqual(self.ran(*words), (2, "", "archive: a word is not UTF-8\n"))
                self.assertEqual(os.listdir(self.folder), [])

    def test_words_of_other_letters_are_text(self):
        self.assertEqual(self.ran("verdicts", "--db", "\u00fc.db"), (1, "", "archive: K4\n"))


class Itself(Lines):
    def setUp(self):
        self.db = self.made()
        self.folder = os.path.dirname(self.db)

    def refused(self, path, db="box.db", before=()):
        """A `put` in the folder whose last path is not read, after some that are."""
        words = ["put", "--db", db, "--at", "0", *before, path]
        ran = subprocess.run([PROGRAM, *words], cwd=self.folder, capture_output=True, text=True, check=False, timeout=LONG)
        new = "".join(f"new {os.path.basename(it)}\n" for it in before)
        self.assertEqual((ran.returncode, ran.stdout, ran.stderr), (1, new, f"archive: cannot read {path}\n"))

    def arrived(self):
        """The names of all that arrived."""
        held = sqlite3.connect(self.db)
        self.addCleanup(held.close)
        return [row[0] for row in held.execute("SELECT name FROM arrivals ORDER BY id")]

    def test_the_database_by_any_path(self):
        os.mkdir(f"{self.folder}/sub")
        os.symlink("box.db", f"{self.folder}/link.db")
        os.symlink("../link.db", f"{self.folder}/sub/twice.db")
        os.symlink(self.folder, f"{self.folder}/sub/folder")
        paths = ("box.db", "./box.db", self.db, "sub/../box.db", "link.db", "sub/twice.db", "sub/folder/box.db", f"../{os.path.basename(self.folder)}/box.db")
        for path in paths:
            for db in ("box.db", self.db, "link.db", "sub/folder/box.db"):
                with self.subTest(path=path, db=db):
                    self.refused(path, db)
        if sqlite3.sqlite_version_info >= (3, 37):
            self.assertEqual(self.arrived(), [])

    def test_the_log_while_it_is_there(self):
        deb, control = (f"{DATA}/{name}" for name in NAMES[1:])
        os.symlink("box.db-wal", f"{self.folder}/log")
        self.refused("box.db-wal", before=[deb])
        self.refused("log", before=[control])
        self.refused(f"{self.db}-wal", "./box.db", before=[f"{DATA}/{NAMES[0]}"])
        self.assertEqual(self.line(0, "run", self.db, "--at", "0"), f"accepted {NAMES[0]}\n")

    def test_other_companions(self):
        for end, text in (("-wal", b""), ("-shm", b""), ("-shm", b"x"), ("-journal", b"")):
            with self.subTest(end=end, text=text):
                path = f"{self.db}{end}"
                with open(path, "wb") as it:
                    it.write(text)
                self.refused(path)
                if os.path.exists(path):
                    os.unlink(path)

    def test_files_that_are_only_called_so_are_delivered(self):
        os.mkdir(f"{self.folder}/sub")
        for name in ("box.db", "box.db-wal"):
            shutil.copy(f"{DATA}/{NAMES[1]}", f"{self.folder}/sub/{name}")
            self.assertEqual(self.line(0, "put", self.db, "--at", "0", f"{self.folder}/sub/{name}"), f"new {name}\n")
        shutil.copy(f"{DATA}/{NAMES[1]}", f"{self.folder}/box.db-other")
        self.assertEqual(self.line(0, "put", self.db, "--at", "0", f"{self.folder}/box.db-other"), "new box.db-other\n")


class Help(Words):
    def test_the_version(self):
        with open(f"{ROOT}/VERSION", encoding="ascii") as it:
            version = it.read().strip()
        self.assertEqual(self.ran("--version"), (0, f"archive {version} (rattle-kit-13)\n", ""))
        self.assertEqual(self.ran("verdicts", "--version")[:2], (2, ""))

    def test_help_has_a_line_for_each_command(self):
        status, printed, told = self.ran("--help")
        self.assertEqual((status, told), (0, ""))
        self.assertRegex(printed, r"(?m)^Usage: archive\b")
        for command in USAGES:
            self.assertRegex(printed, rf"(?m)^ +{command}  +[A-Za-z].*\w")

    def test_no_words_are_told_the_help(self):
        help_text = self.ran("--help")[1]
        self.assertEqual(self.ran(), (2, "", help_text))

    def test_the_help_of_a_command_says_what_each_word_means(self):
        for command, usage in USAGES.items():
            with self.subTest(command):
                status, printed, told = self.ran(command, "--help")
                self.assertEqual((status, told), (0, ""))
                self.assertRegex(printed, rf"(?m)^Usage: archive {self.pattern(command)}$")
                for word in re.findall(r"<\w+>(?:\.\.\.)?", usage):
                    self.assertRegex(printed, rf"(?m)^ +(?:-\w, )?(?:--\w+ )?{re.escape(word)}\s+[A-Za-z].*\w", word)

    def test_the_help_of_a_command_has_its_options(self):
        for command, options in OPTIONS.items():
            printed = self.ran(command, "--help")[1]
            for option in options:
                with self.subTest(command, option=option):
                    self.assertRegex(printed, rf"(?m)^ +{option}\s+[A-Za-z]")

    def test_usage_begins_with_archive_where_words_are_refused(self):
        for command in USAGES:
            with self.subTest(command):
                status, printed, told = self.ran(command, "--nothing")
                self.assertEqual((status, printed), (2, ""))
                self.assertRegex(told, rf"(?m)^Usage: archive {self.pattern(command)}$")

    def test_signed_and_unsigned_exclude_each_other(self):
        for words in (
            ["export", "--db", "a.db", "--signed", "--unsigned", "www"],
            ["serve", "--db", "a.db", "--at", "0", "--export", "www", "--unsigned", "--signed", "127.0.0.1:8080", "1"],
        ):
            with self.subTest(words[0]):
                status, printed, told = self.ran(*words)
                self.assertEqual((status, printed), (2, ""))
                self.assertIn("error: the argument '--signed' cannot be used with '--unsigned'\n", told)
                self.assertRegex(told, rf"(?m)^Usage: archive {self.pattern(words[0])}$")

    def pattern(self, command):
        """A pattern of a command's usage: it may say of options that may be left out that they are there."""
        word, words = USAGES[command].split(" ", 1)
        options = r"(?:\[OPTIONS\] )?" if command in OPTIONS else ""
        return f"{word} {options}{re.escape(words)}"


if __name__ == "__main__":
    main()
