"""Tests of bodies that are stored while they come: clients that are cut off within one and come again, a program that is killed
within one, the memory that one takes, and files that hold less than their length says, can't be read, or have no length. The program
is that of program.py."""
import os
import signal
import sqlite3
import subprocess
import threading

from tests.program import PROGRAM, Lines, Serving, put_of, replied, reset, status_of, wait_until_read
from tests.wants import main, needs, needs_file, needs_that

NEW = replied("201 Created", b"new\n")
AGAIN = replied("200 OK", b"again\n")

# Bodies of 64 KiB, which is one piece, and of 4 MiB, which is the most.
SMALL, LARGE = bytes(range(256)) * 256, bytes(range(256)) * 16_384

# A file of which Linux says that it has 4,096 bytes, and that ends before.
SHORT = "/sys/devices/system/cpu/online"

# The number of KiB that a body of 4 MiB may take more than one of 64 KiB.
MOST_MORE = 1024


def written(path, body):
    """Writes a file, and answers its path."""
    with open(path, "wb") as it:
        it.write(body)
    return path


def is_short():
    """Whether there is a file that ends before its length."""
    try:
        with open(SHORT, "rb") as it:
            return len(it.read()) < os.stat(SHORT).st_size
    except OSError:
        return False


class Bodies(Lines):
    def expect_rows(self, db, bodies, pieces):
        """Checks how many bodies and pieces a database has, by SQLite itself, and that each body is whole."""
        if sqlite3.sqlite_version_info < (3, 37):
            return  # it has no STRICT tables
        held = sqlite3.connect(db)
        self.addCleanup(held.close)
        counted = [held.execute(f"SELECT count(*) FROM {it}").fetchone()[0] for it in ("bodies", "pieces", "bodies WHERE size IS NULL")]
        self.assertEqual(counted, [bodies, pieces, 0])


class CutOff(Bodies):
    def test_a_client_that_is_cut_off_comes_again(self):
        db, request = self.made(), put_of("large.deb", LARGE)
        half = request[: len(request) // 2]
        with Serving(db, 4) as serving:
            self.assertEqual(status_of(serving.answer(half)), 400)
            torn = serving.connected()
            torn.sendall(half)
            reset(torn)
            self.assertEqual(serving.answer(request), NEW)
            self.assertEqual(serving.answer(request), AGAIN)
            self.assertEqual(serving.ended(), (0, "", ""))
        self.expect_rows(db, 1, 64)

    def test_another_body_comes_behind_one_that_was_cut_off(self):
        db, request = self.made(), put_of("large.deb", LARGE)
        with Serving(db, 3) as serving:
            torn = serving.connected()
            torn.sendall(request[: len(request) // 2])
            reset(torn)
            self.assertEqual(serving.answer(put_of("small.deb", SMALL)), NEW)
            self.assertEqual(serving.answer(put_of("small.deb", SMALL)), AGAIN)
            self.assertEqual(serving.ended(), (0, "", ""))
        self.expect_rows(db, 1, 1)

    def test_a_program_that_is_killed_within_a_body_leaves_none_of_it(self):
        db, request = self.made(), put_of("large.deb", LARGE)
        with Serving(db, 1) as serving, serving.connected() as client:
            client.sendall(request[: len(request) // 2])
            wait_until_read(client)
            serving.kill(signal.SIGKILL)
            serving.process.wait()
        with Serving(db, 1) as serving:
            self.assertEqual(serving.answer(request), NEW)
            self.assertEqual(serving.ended(), (0, "", ""))
        self.expect_rows(db, 1, 64)


@needs_file("/proc/self/status")
class Memory(Lines):
    def peak(self, body):
        """The most memory that a fresh server has taken after the delivery of a body, in KiB."""
        with Serving(self.made(), 2) as serving:
            self.assertEqual(serving.answer(put_of("a.deb", body)), NEW)
            with open(f"/proc/{serving.process.pid}/status", encoding="ascii") as it:
                peak = next(int(line.split()[1]) for line in it if line.startswith("VmHWM:"))
            self.assertEqual(serving.answer(b""), b"")
            self.assertEqual(serving.ended(), (0, "", ""))
        return peak

    def test_memory_does_not_grow_with_a_body(self):
        small, large = self.peak(SMALL), self.peak(LARGE)
        print(f"Memory at its most, behind a body of 64 KiB: {small:,} KiB; behind one of 4 MiB: {large:,} KiB.")
        self.assertLessEqual(abs(large - small), MOST_MORE)


class Files(Bodies):
    @needs_that(is_short(), f"{SHORT} that ends before its length")
    def test_a_file_that_ends_before_its_length_is_refused_and_the_next_taken(self):
        db = self.made()
        folder = os.path.dirname(db)
        os.symlink(SHORT, f"{folder}/short.deb")
        whole = written(f"{folder}/whole.deb", LARGE)
        printed = self.line(1, "put", db, "--at", "0", f"{folder}/short.deb", whole)
        self.assertEqual(printed, "refused Q9 short.deb\nnew whole.deb\n")
        self.expect_rows(db, 1, 64)

    @needs("strace")
    def test_a_file_that_can_not_be_read_to_its_end_is_refused_and_the_next_taken(self):
        db = self.made()
        folder = os.path.dirname(db)
        torn, whole = written(f"{folder}/torn.deb", LARGE), written(f"{folder}/whole.deb", SMALL)
        under = ["strace", "-f", "-qq", "-o", os.devnull, "-P", torn, "-e", "trace=read", "-e", "inject=read:error=EIO:when=3+"]
        line = [*under, PROGRAM, "put", "--db", db, "--at", "0", torn, whole]
        ran = subprocess.run(line, capture_output=True, text=True, check=False, timeout=120)
        self.assertEqual((ran.returncode, ran.stdout, ran.stderr), (1, "refused Q10 torn.deb\nnew whole.deb\n", ""))
        self.expect_rows(db, 1, 1)

    def test_what_comes_through_a_pipe_is_delivered(self):
        db = self.made()
        folder = os.path.dirname(db)
        pipe = f"{folder}/piped.deb"
        os.mkfifo(pipe)
        for word in ("new", "again"):
            writer = threading.Thread(target=written, args=(pipe, LARGE), daemon=True)
            writer.start()
            self.assertEqual(self.line(0, "put", db, "--at", "0", pipe), f"{word} piped.deb\n")
            writer.join()
        os.unlink(pipe)
        self.assertEqual(self.line(0, "put", db, "--at", "0", written(pipe, LARGE)), "again piped.deb\n")
        self.expect_rows(db, 1, 64)

    def test_a_file_that_is_too_large_is_refused_by_its_length(self):
        db = self.made()
        path = written(f"{os.path.dirname(db)}/large.deb", b"")
        os.truncate(path, 1 << 33)
        self.assertEqual(self.line(1, "put", db, "--at", "0", path), "refused Q2 large.deb\n")


if __name__ == "__main__":
    main()
