"""Tests of progress: what comes to standard error if that is a terminal, which is one of Python's here, and that nothing comes if it is
no terminal. A pipe among the files holds a command up for longer than a line is shown, so that a line is due after it. The program is
that of program.py."""
import contextlib
import errno
import os
import pty
import re
import signal
import subprocess
import threading
import time

from tests.program import LONG, MOMENT, PROGRAM, SOON, Lines
from tests.wants import main
from uploads import uploads

# How long a pipe holds a command up, and how long a line stands at least, in seconds.
HELD, BETWEEN = 0.4, 0.1

# How long a process that is held up runs and stands still by turns, in seconds, and in how many exports it is looked for a line at most.
RUNS, STANDS, TRIES = 0.004, 0.12, 5

# The sizes of the files of the tests, in bytes: a third of them all, and the rest.
SIZES = {"one": 1000, "two": 2000}

# The number of bytes of the largest file, and the number of such files that make a database that takes long to open.
LARGEST, MANY = 4_194_304, 9


def lines_of(told):
    """The lines that were written over each other, but for the blanks that erase one."""
    return [it for it in re.findall(r"\r([^\r\n]*)", told) if it.strip()]


def rows_of(told):
    """The rows that a terminal shows after a text. A carriage return leads to the front of a row, and what follows is written over it."""
    rows, place = [[]], 0
    for it in told:
        if it == "\n":
            rows.append([])
        if it in "\r\n":
            place = 0
            continue
        rows[-1][place : place + 1] = it
        place += 1
    return ["".join(row).rstrip() for row in rows]


def fed(path):
    """Opens a pipe once a command reads it, holds the command up, and gives it some bytes."""
    end, pipe = time.monotonic() + SOON, None
    while pipe is None and time.monotonic() < end:
        try:
            pipe = os.open(path, os.O_WRONLY | os.O_NONBLOCK)
        except OSError as error:
            if error.errno != errno.ENXIO:
                raise
            time.sleep(0.005)
    if pipe is not None:
        time.sleep(HELD)
        os.write(pipe, b"abc")
        os.close(pipe)


def held_up(process, path):
    """From when there is something at a path, lets a process run and stand still by turns until it ends. So its work lasts longer than a line
    stands at least, however fast the machine is."""
    while process.poll() is None:
        time.sleep(RUNS)
        if os.path.exists(path):
            process.send_signal(signal.SIGSTOP)
            time.sleep(STANDS)
            process.send_signal(signal.SIGCONT)


def rest_of(terminal):
    """All that comes to a terminal until nobody has it any more."""
    parts = []
    with contextlib.suppress(OSError):
        while part := os.read(terminal, 1 << 16):
            parts.append(part)
    return b"".join(parts).decode()


class Progress(Lines):
    """Commands under a terminal."""

    def setUp(self):
        self.db = self.made()
        self.folder = os.path.dirname(self.db)
        for name, size in SIZES.items():
            with open(f"{self.folder}/{name}", "wb") as it:
                it.write(name[:1].encode() * size)
        os.mkfifo(f"{self.folder}/pipe")
        self.files = [f"{self.folder}/{name}" for name in ("one", "pipe", "two")]

    def listed(self, *lines):
        """A list of commands."""
        path = f"{self.folder}/list"
        with open(path, "w", encoding="utf-8") as it:
            it.writelines(f"{line}\n" for line in lines)
        return path

    @contextlib.contextmanager
    def feeding(self, is_fed=True):
        """Feeds the pipe meanwhile."""
        feeder = threading.Thread(target=fed, args=[f"{self.folder}/pipe"], daemon=True)
        if is_fed:
            feeder.start()
        yield
        if is_fed:
            feeder.join()

    def plain(self, word, *words):
        """The status of a line of the program, and what it prints on both outputs, if neither is a terminal."""
        with self.feeding():
            ran = subprocess.run(
                [PROGRAM, word, "--db", self.db, *words], stdin=subprocess.DEVNULL, capture_output=True, text=True, check=False, timeout=LONG
            )
        return ran.returncode, ran.stdout, ran.stderr

    def shown(self, word, *words, is_shared=False, is_fed=True, held_from=None):
        """The status and the outputs if standard error is a terminal, to which standard output may come, too. From when there is something at
        a path, the command may be held up."""
        own, other = pty.openpty()
        with self.feeding(is_fed):
            line, out = [PROGRAM, word, "--db", self.db, *words], other if is_shared else subprocess.PIPE
            process = subprocess.Popen(line, stdin=subprocess.DEVNULL, stdout=out, stderr=other, text=True)
            os.close(other)
            holder = threading.Thread(target=held_up, args=[process, held_from], daemon=True)
            if held_from:
                holder.start()
            told = rest_of(own)
            printed, _ = process.communicate(timeout=LONG)
            if held_from:
                holder.join()
        os.close(own)
        return process.returncode, printed, told

    def test_put(self):
        """A `put` shows how many bytes are delivered, and leaves nothing of it afterwards."""
        status, printed, told = self.shown("put", "--at", MOMENT, *self.files)
        self.assertEqual((status, printed), (0, "new one\nnew pipe\nnew two\n"))
        self.assertEqual(lines_of(told)[0], "put: 33%, 1000 of 3000 bytes")
        self.assertLessEqual(set(lines_of(told)[1:]), {"put: 33%, 1000 of 3000 bytes", "put: 100%, 3000 of 3000 bytes"})
        self.assertEqual(rows_of(told), [""])

    def test_put_on_one_terminal(self):
        """If what is printed comes to the same terminal, it is all that stands there in the end."""
        status, _, told = self.shown("put", "--at", MOMENT, *self.files, is_shared=True)
        self.assertEqual(status, 0)
        self.assertIn("put: 33%, 1000 of 3000 bytes", told)
        self.assertEqual(rows_of(told), ["new one", "new pipe", "new two", ""])

    def test_batch(self):
        """A `batch` shows how many lines are done. A file that can't be read has its line as ever."""
        one, pipe, two = self.files
        path = self.listed(f"put {one}", f"put {pipe}", "run", f"put {self.folder}/none", f"put {two}")
        status, printed, told = self.shown("batch", "--at", MOMENT, path)
        self.assertEqual((status, printed), (1, "new one\nnew pipe\nnew two\n"))
        known = [f"batch: {share}%, {done} of 5 lines" for done, share in ((2, 40), (3, 60), (4, 80), (5, 100))]
        lines = [it for it in lines_of(told) if it in known]
        self.assertEqual(lines[0], known[0])
        self.assertEqual(lines, sorted(lines, key=known.index))
        self.assertEqual(rows_of(told), [f"archive: cannot read {self.folder}/none", ""])

    def test_batch_on_one_terminal(self):
        one, pipe, two = self.files
        path = self.listed(f"put {one}", f"put {pipe}", "run", f"put {self.folder}/none", f"put {two}")
        status, _, told = self.shown("batch", "--at", MOMENT, path, is_shared=True)
        self.assertEqual(status, 1)
        self.assertIn("batch: 40%, 2 of 5 lines", told)
        self.assertEqual(rows_of(told), ["new one", "new pipe", f"archive: cannot read {self.folder}/none", "new two", ""])

    def test_no_terminal(self):
        """Without a terminal nothing of it is written, however long a command takes."""
        self.assertEqual(self.plain("put", "--at", MOMENT, *self.files), (0, "new one\nnew pipe\nnew two\n", ""))
        path = self.listed(*(f"put {it}" for it in self.files), "run")
        self.assertEqual(self.plain("batch", "--at", MOMENT, path), (0, "again one\nagain pipe\nagain two\n", ""))

    def test_error_at_the_end(self):
        """The reason why a command ends is printed after the progress, not beside it."""
        status, printed, told = self.shown("put", "--at", MOMENT, *self.files[:2], f"{self.folder}/none")
        self.assertEqual((status, printed), (1, "new one\nnew pipe\n"))
        self.assertEqual(lines_of(told)[0], "put: 100%, 1000 of 1000 bytes")
        self.assertEqual(rows_of(told), [f"archive: cannot read {self.folder}/none", ""])

    def test_terminal_that_is_gone(self):
        """A terminal that goes away meanwhile changes nothing."""
        own, other = pty.openpty()
        line = [PROGRAM, "put", "--db", self.db, "--at", MOMENT, *self.files]
        process = subprocess.Popen(line, stdin=subprocess.DEVNULL, stdout=subprocess.PIPE, stderr=other, text=True)
        os.close(other)
        self.assertEqual(process.stdout.readline(), "new one\n")
        os.close(own)
        with self.feeding():
            printed, _ = process.communicate(timeout=LONG)
        self.assertEqual((process.returncode, printed), (0, "new pipe\nnew two\n"))

    def test_opening(self):
        """An opening of a large database is shown while it lasts, and one of a small database is not. A line is shown for a
        while."""
        self.assertEqual(self.shown("waiting", "--at", MOMENT, is_fed=False), (0, "", ""))
        paths = [f"{self.folder}/large-{number}" for number in range(MANY)]
        for path in paths:
            with open(path, "wb") as it:
                it.write(os.urandom(LARGEST))
        start = time.monotonic()
        status, _, told = self.shown("put", "--at", MOMENT, *paths, is_fed=False)
        self.assertEqual((status, rows_of(told)), (0, [""]))
        self.assertLessEqual(len(lines_of(told)), (time.monotonic() - start) / BETWEEN)
        size = os.path.getsize(self.db)
        self.assertGreaterEqual(size, 1 << 25)
        status, printed, told = self.shown("waiting", "--at", MOMENT, is_fed=False)
        self.assertEqual((status, printed, lines_of(told), rows_of(told)), (0, "", [f"opening: {size} bytes"], [""]))

    def test_export(self):
        """An export shows how many of its steps are made: each file of the pool, and the suite, which comes last. It is held up from when it has
        made its folder, so that lines are due meanwhile. If it has ended before that, another export is held up."""
        paths = [path for upload in uploads.make(f"{self.folder}/uploads", MANY, pad=LARGEST - 10_000) for path in upload]
        self.line(0, "put", self.db, "--at", MOMENT, *paths)
        self.assertEqual(self.line(0, "run", self.db, "--at", MOMENT).count("accepted "), MANY)
        steps, lines = MANY + 1, []
        for tree in (f"{self.folder}/www{number}" for number in range(TRIES)):
            status, printed, told = self.shown("export", tree, is_fed=False, held_from=tree)
            self.assertEqual((status, rows_of(told)), (0, [""]))
            self.assertIn(f"pool {MANY} 0 0 0\n", printed)
            lines = [it for it in lines_of(told) if it.startswith("export: ")]
            if lines:
                break
        known = [f"export: {100 * done // steps}%, {done} of {steps} steps" for done in range(1, steps + 1)]
        self.assertTrue(lines)
        self.assertEqual(lines, [it for it in known if it in lines])
        self.assertEqual(self.plain("export", tree)[2], "")


if __name__ == "__main__":
    main()
