"""Tests of the words that come after the code by which a command ends, if standard error is a terminal, which is one of Python's here; and
that elsewhere the code stands alone. The program is that of program.py."""
import contextlib
import os
import pathlib
import pty
import sqlite3
import subprocess
import tempfile

from tests import older
from tests.program import LONG, PROGRAM, Lines, Serving, mounted
from tests.test_progress import rest_of
from tests.wants import main, needs_strict_tables

BOX = "Codename: box\nArchitectures: amd64 source\nComponents: main\n"
FOX = "Codename: fox\nArchitectures: amd64\nComponents: main\n"


def many(count):
    """Configurations of this number of suites."""
    return "\n".join(BOX.replace("box", f"box{number}") for number in range(count))


# Configurations that are refused: the text, the code, and the words.
CONFIGURATIONS = [
    ("Architectures: amd64\nComponents: main\n", "F2", "paragraph 1 has no Codename"),
    ("Codename: my box\n", "F2", "paragraph 1 has no Architectures and no Components"),
    (f"{BOX}\nCodename: fox\nArchitectures:\nDescription: f\n", "F2", "suite fox has no word in Architectures and no Components"),
    (BOX.replace("box", "my box"), "F3", "Codename of paragraph 1 is not one name of letters, digits and ._-"),
    (f"{BOX}Suite:\n", "F3", "Suite of suite box is not one name of letters, digits and ._-"),
    (f"{BOX}Origin: a\n b\n", "F3", "Origin of suite box is not one line with a text"),
    (f"{BOX}\n{FOX}label:\n", "F3", "label of suite fox is not one line with a text"),
    (BOX.replace("amd64", "amd64 all"), "F3", "Architectures of suite box may not have the word all"),
    (BOX.replace("amd64", "amd64\x9b[31m"), "F3", "Architectures of suite box may not have the word amd64?[31m"),
    (BOX.replace("amd64", "Amd64"), "F3", "Architectures of suite box may not have the word Amd64"),
    (BOX.replace("main", "main free main"), "F3", "Components of suite box has the word main twice"),
    (f"{BOX}AlsoAcceptFor:\n", "F3", "AlsoAcceptFor of suite box has no word"),
    (f"{BOX}KeepDays: 0\n", "F3", "KeepDays of suite box is not a number of days from 1 to 3650"),
    (f"{BOX}ValidDays: 7 days\n", "F3", "ValidDays of suite box is not a number of days from 1 to 3650"),
    (f"{BOX}MaxFileSize: 3\n", "F3", "MaxFileSize of suite box is not a number of MiB from 4 to 1024"),
    (f"{BOX}\n{FOX}KeepDays: 7\n", "F3", "KeepDays of suite fox belongs to the first paragraph"),
    (f"{BOX}\n{FOX}MaxFileSize: 8\n", "F3", "MaxFileSize of suite fox belongs to the first paragraph"),
    (f"{BOX}Suite: stable\n\n{FOX}AlsoAcceptFor: unstable\n stable\n", "F4", "suite box and suite fox both take stable"),
    (f"{BOX}\n{FOX}\n{BOX}", "F4", "paragraph 1 and paragraph 3 both take box"),
    (f"{BOX}Uploaders:\n * by anybody\n hello Ann\n", "F5", "rule 2 in Uploaders of suite box is not SOURCE by PERSON: hello Ann"),
    (f"{BOX}Uploaders: * by anybody\n", "F5", "Uploaders of suite box has a text on its first line"),
    (many(17), "F6", "there are 17 suites, more than 16"),
    (BOX.replace("amd64", " ".join(f"a{it}" for it in range(16))), "F6", "Architectures of suite box has more than 16 words"),
    (BOX.replace("main", " ".join(f"c{it}" for it in range(9))), "F6", "Components of suite box has more than 8 words"),
    (f"{BOX}Uploaders:\n" + " * by anybody\n" * 257, "F6", "Uploaders of suite box has more than 256 lines"),
]


def on_terminal(*words):
    """The status of a line of the program, what it prints, and the lines that come to a terminal that is its standard error."""
    own, other = pty.openpty()
    process = subprocess.Popen([PROGRAM, *words], stdin=subprocess.DEVNULL, stdout=subprocess.PIPE, stderr=other, text=True)
    os.close(other)
    told = rest_of(own)
    printed, _ = process.communicate(timeout=LONG)
    os.close(own)
    return process.returncode, printed, told.splitlines()


class Meanings(Lines):
    """Commands that are refused, with a terminal and without, over copies of one database in which an upload is accepted."""

    body = b""

    def setUp(self):
        Meanings.body = Meanings.body or pathlib.Path(self.accepted()).read_bytes()
        room = tempfile.TemporaryDirectory()
        self.addCleanup(room.cleanup)
        self.folder, self.db = room.name, f"{room.name}/box.db"
        pathlib.Path(self.db).write_bytes(self.body)

    def conf(self, text):
        """A file with the text of a configuration."""
        path = f"{self.folder}/some.conf"
        with open(path, "w", encoding="utf-8") as it:
            it.write(text)
        return path

    def check(self, status, code, words, *line):
        """Checks the code and the words of a line on a terminal, and that the code stands alone elsewhere."""
        wanted = [f"archive: {it}" for it in (code, words) if it]
        self.assertEqual(on_terminal(*line), (status, "", wanted), line)
        ran = subprocess.run([PROGRAM, *line], stdin=subprocess.DEVNULL, capture_output=True, text=True, check=False, timeout=LONG)
        self.assertEqual((ran.returncode, ran.stdout, ran.stderr), (status, "", f"archive: {code}\n"), line)

    def test_configurations(self):
        """The words name the field that is wrong, and its suite or paragraph, whatever command reads it."""
        for text, code, words in CONFIGURATIONS:
            self.check(1, code, words, "check", self.conf(text))
        text, code, words = CONFIGURATIONS[-2]
        self.check(1, code, words, "init", "--db", f"{self.folder}/new.db", "--at", "0", self.conf(text))
        self.check(1, code, words, "configure", "--db", self.db, "--at", "0", self.conf(text))
        self.check(1, code, words, "migrate", "--from", self.db, "--db", f"{self.folder}/new.db", "--at", "0", self.conf(text))
        self.check(1, "F1 P8", None, "check", self.conf("\n"))

    def test_configuration_from_standard_input(self):
        """The words come from the text that was read, which can't be read again."""
        own, other = pty.openpty()
        line = [PROGRAM, "check", "/dev/stdin"]
        with subprocess.Popen(line, stdin=subprocess.PIPE, stdout=subprocess.PIPE, stderr=other, text=True) as process:
            os.close(other)
            process.stdin.write(f"{BOX}KeepDays: 0\n")
            process.stdin.close()
            told = rest_of(own)
            process.wait(timeout=LONG)
        os.close(own)
        self.assertEqual(told.splitlines(), ["archive: F3", "archive: KeepDays of suite box is not a number of days from 1 to 3650"])

    def test_hidden(self):
        """The words of K5 name what the new configuration would hide."""
        rows = [
            (FOX, "suite box shows hello, and the new configuration has no suite box"),
            (BOX.replace("main", "free"), "suite box shows hello in main, a component that the new configuration does not keep there"),
            (BOX.replace("amd64", "arm64"), "suite box shows hello for amd64, an architecture that the new configuration does not keep there"),
        ]
        for text, words in rows:
            self.check(1, "K5", words, "configure", "--db", self.db, "--at", "0", self.conf(text))

    @needs_strict_tables
    def test_migrations(self):
        old, new = f"{self.folder}/old.db", f"{self.folder}/new.db"
        older.archive().make(2, old)
        words = f"the configuration is not that of {old}: more differs than KeepDays, ValidDays and MaxFileSize"
        self.check(1, "K5", words, "migrate", "--from", old, "--db", new, "--at", "0", self.conf(FOX))
        conf = self.conf(older.BOX)
        words = "is no archive of an older layout, or"
        self.check(1, "K4", f"{self.db} {words} {new} holds something already", "migrate", "--from", self.db, "--db", new, "--at", "0", conf)
        self.check(1, "K4", f"{old} {words} {self.db} holds something already", "migrate", "--from", old, "--db", self.db, "--at", "0", conf)
        code = "K4\narchive: an archive of layout 2: archive migrate reads it"
        status, printed, told = on_terminal("verdicts", "--db", old)
        self.assertEqual((status, printed, told), (1, "", f"archive: {code}".splitlines()))

    def test_no_archive(self):
        other, empty, none = (f"{self.folder}/{name}" for name in ("some.conf", "empty", "none"))
        self.conf(BOX)
        with open(empty, "wb"):
            pass
        self.check(1, "K4", f"no file is at {none}", "verdicts", "--db", none)
        self.check(1, "K4", f"{empty} is empty", "export", "--db", empty, f"{self.folder}/tree")
        words = f"{self.db} holds something already"
        self.check(1, "K4", words, "init", "--db", self.db, "--at", "0", other)
        with contextlib.closing(sqlite3.connect(none)) as it:
            it.execute("CREATE TABLE notes (text)")
        self.check(1, "K4", f"{none} is no archive: the path is wrong, or another program changed it", "verdicts", "--db", none)

    def test_another_process(self):
        """The words of K2 say that another process has the file."""
        with Serving(self.db, 2) as serving:
            serving.connected().close()
            self.check(3, "K2", f"another process has {self.db}: fuser {self.db} prints its number", "verdicts", "--db", self.db)

    def test_disk(self):
        db = f"{self.folder}/none/box.db"
        words = f"another process has {db}, which fuser {db} prints, or the file can't be read and written, or the disk is full or fails"
        self.check(3, "K2", words, "init", "--db", db, "--at", "0", self.conf(BOX))

    def test_full_disk(self):
        with mounted(1 << 20) as folder:
            db = f"{folder}/box.db"
            pathlib.Path(db).write_bytes(self.body)
            large = pathlib.Path(self.folder, "large")
            large.write_bytes(bytes(2_000_000))
            status, printed, told = on_terminal("put", "--db", db, "--at", "0", str(large))
            told = [it.rpartition("\r")[2] for it in told]
            self.assertEqual((status, printed, told), (3, "", ["archive: Q4 K2", f"archive: the disk of {db} is full or fails"]))

    def test_suites(self):
        """The words of Q6 name the suites that there are."""
        self.line(0, "configure", self.db, "--at", "0", self.conf(f"{BOX}Suite: stable\n\n{FOX}"))
        words = "no suite has the codename stable; the suites there are: box fox"
        self.check(1, "Q6", words, "list", "--db", self.db, "stable")
        for line in (["copy", "stable", "box", "hello"], ["copy", "box", "stable", "hello"], ["promote", "box", "stable"], ["remove", "stable", "hello"]):
            word, *rest = line
            self.check(1, "Q6", words, word, "--db", self.db, "--at", "0", *rest)
        self.check(1, "Q6", words.replace("codename stable", "codename ?[31m"), "list", "--db", self.db, "\x1b[31m")

    def test_names(self):
        """The words of Q11 name the nearest name, if one is near."""
        for name, near in (("helo", "hello"), ("Hello", "hello"), ("hellooo", "hello"), ("jelly", "hello"), ("world", None), ("he", None), ("greetings", None)):
            words = f"suite box shows nothing of the name {name}" + (f", did you mean {near}" if near else "")
            self.check(1, "Q11", words, "remove", "--db", self.db, "--at", "0", "box", name)

    def test_what_is_done_has_no_words(self):
        self.assertEqual(on_terminal("list", "--db", self.db, "box")[::2], (0, []))
        self.check(1, "not found", None, "show", "--db", self.db, "dists/fox/Release")


if __name__ == "__main__":
    main()
