"""Rows on the program's command lines, over database files. Each file of rows in tests/lines is a test. Its rows are asked in their
order, and the lines are run in a folder that is new with each file: the later lines find what the earlier ones leave in files.

    line WORD..            what a line prints, its errors after a line `errors:`, and its exit status; `(no newline)` after a text without an end
    line-with TEXT WORD..  what a line prints with this text on standard input
    cut-output N WORD..    what a line prints if standard output takes N bytes and then fails
    cut-errors N WORD..    what a line prints if standard error does so
    write NAME BODY        `written`
    read NAME              the bytes of a file
    remove NAME            `removed`
    copy-file FROM TO      `copied`
    exists NAME            `yes` or `no`

Questions on files may also be answered `not there` or `failed`. The program is that of program.py, and the one that Rattle's own
compiler builds from these sources, if that is beside it."""
import inspect
import os
import pathlib
import resource
import shutil
import subprocess
import tempfile
import unittest

from tests.program import PROGRAM, ROOT
from tests.rows import Row, Unread, questions_of, read_rows
from tests.wants import main, needs_file

FILES = sorted(pathlib.Path(ROOT, "tests/lines").glob("*.rows"))
PROGRAMS = [os.path.abspath(it) for it in (PROGRAM, f"{PROGRAM}.by-rattle") if os.path.exists(it)]

# The number of bytes that a file may have, for a program with an output that is cut.
MOST = 1 << 26

# The number of seconds that a line may take.
LONG = 300

# The number of bytes that are shown of texts that differ, and the most of these before the first that differs.
SHOWN, BEFORE = 160, 80


def let_files_have_most():
    """Lets no file of this process grow beyond MOST bytes."""
    resource.setrlimit(resource.RLIMIT_FSIZE, (MOST, resource.getrlimit(resource.RLIMIT_FSIZE)[1]))


def ended(text):
    """A text, with the end of its last line, and with a line that says so if it had none."""
    return text if text.endswith(b"\n") or not text else text + b"\n(no newline)\n"


def told(printed, errors, status):
    """What a line printed on both outputs, and its exit status."""
    return ended(printed) + (b"errors:\n" + ended(errors) if errors else b"") + b"status %d\n" % status


def tried(do, said=None):
    """The answer to work with files: this word or, without one, the result; or why it failed."""
    try:
        found = do()
    except FileNotFoundError:
        return b"not there"
    except OSError:
        return b"failed"
    return said or found


class Folder:
    """A folder that the lines of a program are run in, and what is answered to questions there."""

    def __init__(self, program, path):
        self.program, self.path = program, path

    def file(self, name):
        return pathlib.Path(self.path, os.fsdecode(name))

    def ran(self, words, **more):
        """The end of a line."""
        streams = {"stdin": subprocess.DEVNULL, "stdout": subprocess.PIPE, "stderr": subprocess.PIPE}
        return subprocess.run([self.program, *words], cwd=self.path, check=False, timeout=LONG, **{**streams, **more})

    def line(self, *words):
        ran = self.ran(words)
        return told(ran.stdout, ran.stderr, ran.returncode)

    def line_with(self, text, *words):
        """What a line prints that has this text on standard input."""
        with tempfile.TemporaryFile() as file:
            file.write(text)
            file.seek(0)
            ran = self.ran(words, stdin=file)
        return told(ran.stdout, ran.stderr, ran.returncode)

    def cut(self, output, room, words):
        """What a line prints if this output is a file that has room for this number of bytes: beyond that the file may not grow. The
        signal for this is ignored, as Python does, and so only the call reports it."""
        if not room.isdigit():
            raise Unread("the second word is no number")
        with tempfile.TemporaryFile(buffering=0) as file:
            start = file.seek(MOST - int(room))
            ran = self.ran(words, **{output: file}, preexec_fn=let_files_have_most, restore_signals=False)
            file.seek(start)
            texts = {"stdout": ran.stdout, "stderr": ran.stderr, output: file.read()}
        return told(texts["stdout"], texts["stderr"], ran.returncode)

    def cut_output(self, room, *words):
        return self.cut("stdout", room, words)

    def cut_errors(self, room, *words):
        return self.cut("stderr", room, words)

    def write(self, name, body):
        return tried(lambda: self.file(name).write_bytes(body), b"written")

    def read(self, name):
        return tried(self.file(name).read_bytes)

    def remove(self, name):
        return tried(self.file(name).unlink, b"removed")

    def copy(self, name, to):
        return tried(lambda: shutil.copyfile(self.file(name), self.file(to)), b"copied")

    def exists(self, name):
        return b"yes" if self.file(name).exists() else b"no"


QUESTIONS = {
    b"line": Folder.line,
    b"line-with": Folder.line_with,
    b"cut-output": Folder.cut_output,
    b"cut-errors": Folder.cut_errors,
    b"write": Folder.write,
    b"read": Folder.read,
    b"remove": Folder.remove,
    b"copy-file": Folder.copy,
    b"exists": Folder.exists,
}


def answer(folder, words):
    """The answer to the words of a row."""
    question = QUESTIONS.get(words[0])
    if not question:
        raise Unread("the first word asks nothing")
    try:
        inspect.signature(question).bind(folder, *words[1:])
    except TypeError:
        raise Unread("too few words, or too many") from None
    try:
        return question(folder, *words[1:])
    except subprocess.TimeoutExpired:
        return b"no end within %d seconds\n" % LONG


def difference(found, wanted):
    """What was found, and what is wanted, from shortly before the first byte that differs."""
    start = max(0, len(os.path.commonprefix([found, wanted])) - BEFORE)
    return f"found {found[start:start + SHOWN]}, wanted {wanted[start:start + SHOWN]}"


def differences(folder, questions):
    """A line for each question whose answer differs, up to one that can't be asked; in front is the number of its line."""
    for number, words, wanted in questions:
        try:
            found = answer(folder, words)
        except Unread as fault:
            yield f"{number}: {fault}"
            return
        if found != wanted:
            yield f"{number}: {difference(found, wanted)}"


class Reading(unittest.TestCase):
    """What is read of files of rows, and when they fail."""

    def test_there_are_files(self):
        self.assertNotEqual(FILES, [])

    def read(self, text):
        """The words and the answer of the last row of a text."""
        return list(read_rows(text, {b"known": b"a b\n"}))[-1][1:]

    def test_rows_that_are_read(self):
        for text, words, wanted in (
            (b"ask = yes", [b"ask"], b"yes"),
            (b'# A comment.\n\n  ask  1+ $known x$ =  a  = "b"\n', [b"ask", b"1+", b"a b\n", b"x$"], b"a = b"),
            (b'ask "" = ""', [b"ask", b""], b""),
            (b'ask "a b"+$known+"\\n\\r\\t\\\\\\"\\xC0" = x', [b"ask", b'a ba b\n\n\r\t\\"\xc0'], b"x"),
            (b'ask "ab"*3+"n\\i,"*2 "x"*..5 = "a"*3 $known+"b"*..10', [b"ask", b"abababn0,n1,", b"xxxxx"], b"aaa a b\nbb"),
            (b'ask "\\i."*..6 = x', [b"ask", b"0.1.2."], b"x"),
            (b'ask 1\n|a "b"\\x20\n|\n', [b"ask", b"1"], b'a "b" \n\n'),
            (b"ask = 1\n|a\n", [b"ask", b"a\n"], b"1"),
            (b'text one\n|a\n|b\ntext two $one+"c"\nask $two = $one', [b"ask", b"a\nb\nc"], b"a\nb\n"),
        ):
            with self.subTest(text):
                self.assertEqual(self.read(text), (words, wanted))

    def test_rows_that_are_not_read(self):
        for text in (
            b"ask",
            b"ask =",
            b"= yes",
            b"|a",
            b"ask = yes\n\n|a",
            b"ask = yes\n# A comment.\n|a",
            b'ask "a = yes',
            b'ask "a\\" = yes',
            b'ask "a"b = yes',
            b'ask "a""b" = yes',
            b'ask a"b" = yes',
            b'ask "a"+b = yes',
            b'ask "a"+ = yes',
            b'ask "\\a" = yes',
            b'ask "\\x0" = yes',
            b'ask "a"* = yes',
            b'ask "a"*8388609 = yes',
            b'ask "ab"*..3 = yes',
            b'ask ""*..3 = yes',
            b'ask "abc"+"d"*..2 = yes',
            b"ask $unknown = yes",
            b"ask\n|\\",
            b"ask\n|\\i",
            b"text one",
            b"text one a b",
            b"text one a\n|b",
            b"text known a",
        ):
            with self.subTest(text), self.assertRaises(Unread):
                self.assertEqual(self.read(text), "unread")

    def test_what_is_no_question(self):
        for words in ([b"nothing"], [b"read"], [b"read", b"a", b"b"], [b"line-with"], [b"cut-output"], [b"cut-output", b"x", b"compare", b"1", b"2"]):
            with self.subTest(words), self.assertRaises(Unread):
                answer(Folder("no program", "no folder"), words)

    def test_a_row_that_differs_is_told(self):
        rows = [Row(4, [b"read", b"a"], b"not there"), Row(5, [b"read", b"a"], b"there"), Row(7, [b"nothing"], b""), Row(8, [b"nothing"], b"")]
        found = ["5: found b'not there', wanted b'there'", "7: the first word asks nothing"]
        self.assertEqual(list(differences(Folder("no program", "no folder"), rows)), found)


@needs_file(PROGRAM)
class Rows(unittest.TestCase):
    def expect(self, path):
        """Asks the rows of a file."""
        try:
            questions = questions_of(path)
        except Unread as fault:
            raise self.failureException(fault) from None
        self.assertTrue(questions, f"{path.name} has no rows")
        for program in PROGRAMS:
            with self.subTest(program=os.path.basename(program)), tempfile.TemporaryDirectory() as folder:
                found = [f"{path.name}:{it}" for it in differences(Folder(program, folder), questions)]
                if found:
                    self.fail("\n".join(found))


def test_of(path):
    """The test of a file of rows."""
    return lambda self: self.expect(path)


for file_of_rows in FILES:
    setattr(Rows, f"test_{file_of_rows.stem}", test_of(file_of_rows))


if __name__ == "__main__":
    main()
