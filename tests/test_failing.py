"""Tests of `serve` over a file that may not grow, over a disk that is full, and over one whose calls fail one by one. The second needs a
file system of its own, which root may mount, the last strace; if that is not there they say that they were skipped. The program is that
of program.py."""
import contextlib
import os
import re
import resource
import shutil
import sqlite3
import tempfile

from tests.program import LONG, NAMES, Lines, Serving, get, mounted, put, put_of, replied, status_of
from tests.wants import main, needs

NEW = replied("201 Created", b"new\n")
AGAIN = replied("200 OK", b"again\n")
NOTHING = replied("200 OK", b"")
FULL = replied("507 Insufficient Storage", b"507 Insufficient Storage\n")
ACCEPTED = replied("200 OK", f"accepted {NAMES[0]}\n".encode())
ABC = replied("200 OK", b"abc", "application/octet-stream")
DEB = "pool/main/h/hello/hello_1.0-1_amd64.deb"

# Requests in their order, each with its reply, and with the reply that may come instead if the request was sent before and
# answered 507.
SESSION = (
    *((put(name), NEW, AGAIN) for name in NAMES),
    (get("queue"), replied("200 OK", f"0 {NAMES[0]}\n".encode()), None),
    (b"POST /queue/run HTTP/1.1\r\n\r\n", ACCEPTED, NOTHING),
    (get("verdicts"), ACCEPTED, None),
    (put_of("large_1.0-1_amd64.deb", b"." * 200_000), NEW, AGAIN),
    (get(DEB), ABC, None),
)

# The least number of connections after a session.
MORE = 3


def name_of(kind, number):
    return f"{kind}{number}_1.0-1_amd64.deb"


def large(number):
    return put_of(name_of("large", number), bytes([number]) * 2_000_000)


def small(number):
    return put_of(name_of("small", number), b"%d" % number)


def let_files_grow(process, most=None):
    """Lets the files that a process writes grow to this number of bytes, or as far as they might before."""
    hard = resource.prlimit(process.pid, resource.RLIMIT_FSIZE)[1]
    resource.prlimit(process.pid, resource.RLIMIT_FSIZE, (hard if most is None else most, hard))


class FullFile(Lines):
    # What runs a program so that only its call reports that a file may not grow.
    UNDER = ("sh", "-c", "trap '' XFSZ; exec \"$@\"", "sh")

    def test_what_is_answered_while_no_file_may_grow(self):
        with Serving(self.made(), 8, under=self.UNDER) as serving:
            self.assertEqual(serving.answer(small(0)), NEW)
            let_files_grow(serving.process, 1_000_000)
            for number in (1, 2):
                self.assertEqual(serving.answer(large(number)), FULL)
                self.assertEqual(serving.answer(get("verdicts")), NOTHING)
            let_files_grow(serving.process)
            self.assertEqual(serving.answer(large(1)), NEW)
            self.assertEqual(serving.answer(large(1)), AGAIN)
            self.assertEqual(serving.answer(small(0)), AGAIN)
            self.assertEqual(serving.ended(), (0, "", ""))


class FullDisk(Lines):
    """What came of a file that did not fit stays until the next body begins, for which there may be no room either."""

    def test_what_is_answered_over_a_full_disk(self):
        with mounted(20_000_000) as folder:
            db = self.made()
            shutil.copy(db, f"{folder}/box.db")
            self.fill(folder, f"{folder}/box.db")

    def fill(self, folder, db):
        with Serving(db, 16) as serving:
            self.assertEqual(serving.answer(small(0)), NEW)
            with open(f"{folder}/filler", "wb") as it:
                it.write(b"." * 18_500_000)
            there = {0} | {number for number in (1, 2) if self.fits(serving, number)}
            os.unlink(f"{folder}/filler")
            for number in range(4):
                self.assertEqual(serving.answer(small(number)), AGAIN if number in there else NEW)
            for number, reply in ((1, NEW), (1, AGAIN), (2, NEW)):
                self.assertEqual(serving.answer(large(number)), reply)
            self.assertEqual(serving.ended(), (0, "", ""))
        self.assertEqual(self.line(0, "verdicts", db), "")
        self.expect_arrivals(db, [name_of("large", number) for number in (1, 2)] + [name_of("small", number) for number in range(4)])

    def fits(self, serving, number):
        """Delivers a large file that does not fit, and small ones after it. Says whether the new one of these is there."""
        self.assertEqual(serving.answer(large(number)), FULL)
        self.assertEqual(serving.answer(get("verdicts")), NOTHING)
        reply = serving.answer(small(number))
        self.assertIn(reply, (NEW, FULL))
        self.assertIn(serving.answer(small(0)), (AGAIN, FULL))
        return reply == NEW

    def expect_arrivals(self, db, names):
        """Checks by SQLite itself that these files have arrived, each once, and that each body is whole."""
        if sqlite3.sqlite_version_info < (3, 37):
            return  # it has no STRICT tables
        with contextlib.closing(sqlite3.connect(db)) as held:
            self.assertEqual([name for (name,) in held.execute("SELECT name FROM arrivals ORDER BY name")], names)
            self.assertEqual(held.execute("SELECT count(*), count(size) FROM bodies").fetchone(), (len(names), len(names)))


def under(trace, names, *more):
    """What runs a program so that its calls of these names are written to a file, and the given ones fail."""
    return ["strace", "-f", "-qq", "-o", trace, "-e", f"trace=accept,accept4,{names}", *more]


class FailingCalls(Lines):
    """A session in which each call of some names fails once, in its turn."""

    # The calls that fail, and how.
    NAMES, FAULT = (), ""

    def setUp(self):
        room = tempfile.TemporaryDirectory()
        self.addCleanup(room.cleanup)
        self.trace = f"{room.name}/trace"

    def calls(self):
        """The calls of a session without a failure, in their order, each as its name, with `accept` between."""
        db = self.made()
        names = ",".join(self.NAMES)
        with Serving(db, len(SESSION), under=under(self.trace, names)) as serving:
            for request, reply, _ in SESSION:
                self.assertEqual(serving.answer(request), reply)
            self.assertEqual(serving.ended(LONG), (0, "", ""))
        with open(self.trace, encoding="utf-8") as it:
            return re.findall(r"(?m)^(?:\d+ +)?(\w+)\(", it.read().replace("accept4(", "accept("))

    def failures(self):
        """Each call after the first connection, as its name and its number among the calls of this name."""
        seen = dict.fromkeys(self.NAMES, 0)
        connections = 0
        for name in self.calls():
            if name == "accept":
                connections += 1
                continue
            seen[name] += 1
            if connections:
                yield name, seen[name], connections

    def answered(self, serving, request, reply, also):
        """Sends a request, and once more if it is answered 507. Answers how often it was sent."""
        found = serving.answer(request)
        if found != FULL:
            self.assertEqual(found, reply)
            return 1
        self.assertIn(serving.answer(request), (reply, also))
        return 2

    def failing(self, name, number):
        """What makes a call of a name fail, counted from the program's start."""
        return under(self.trace, name, "-e", f"inject={name}:error={self.FAULT}:when={number}")

    def each_fails_once(self):
        """Makes the session once for each call."""
        found = list(self.failures())
        self.assertNotEqual(found, [])
        repeated = 0
        for name, number, connection in found:
            with self.subTest(call=name, number=number, connection=connection):
                repeated += self.session(name, number)
        print(f"{len(found)} calls of {' and '.join(self.NAMES)} failed one by one; {repeated} requests were answered 507.")

    def session(self, name, number):
        """The session, in which a call fails. Answers how many requests were answered 507."""
        db = self.made()
        with Serving(db, len(SESSION) + MORE, under=self.failing(name, number)) as serving:
            sent = sum(self.answered(serving, *it) for it in SESSION)
            for _ in range(len(SESSION) + MORE - sent):
                self.assertEqual(serving.answer(get("verdicts")), ACCEPTED)
            self.assertEqual(serving.ended(LONG), (0, "", ""))
        self.assertEqual(self.line(0, "verdicts", db), f"accepted {NAMES[0]}\n")
        self.assertEqual(self.line(0, "show", db, DEB), "abc")
        return sent - len(SESSION)

    def first_in_second_connection(self):
        """The first failing call after the beginning of the second connection."""
        return next((name, number) for name, number, connection in self.failures() if connection == 2)


@needs("strace")
class FailingSyncs(FailingCalls):
    NAMES, FAULT = ("fsync", "fdatasync"), "EIO"

    def test_each_sync_fails_once(self):
        self.each_fails_once()

    def test_where_the_file_is_gone_the_server_ends(self):
        name, number = self.first_in_second_connection()
        db = self.made()
        with Serving(db, 10, under=self.failing(name, number)) as serving:
            self.assertEqual(serving.answer(put(NAMES[0])), NEW)
            for end in ("", "-wal"):
                if os.path.exists(f"{db}{end}"):
                    os.rename(f"{db}{end}", f"{db}.away{end}")
            self.assertEqual(serving.answer(put(NAMES[1])), FULL)
            status, printed, told = serving.ended(LONG)
        self.assertEqual((status, printed), (3, ""))
        self.assertRegex(told, r"\Aarchive: K[124]\n\Z")
        self.assertFalse(os.path.exists(db))
        for end in ("", "-wal"):
            if os.path.exists(f"{db}.away{end}"):
                os.rename(f"{db}.away{end}", f"{db}{end}")
        self.assertIn(self.line(0, "waiting", db, "--at", "0"), (f"1 {NAMES[0]}\n", f"2 {NAMES[0]}\n"))

    def test_where_each_sync_fails_nothing_is_lost(self):
        """All syncs fail from one on: what was answered before is there, and what is answered 507 may be."""
        name, number = self.first_in_second_connection()
        db = self.made()
        more = ["-e", f"inject={name}:error=EIO:when={number}+"]
        with Serving(db, 4, under=under(self.trace, name, *more)) as serving:
            self.assertEqual(serving.answer(put(NAMES[0])), NEW)
            statuses = []
            # It may end, and then nothing listens; a client that it had not accepted yet is reset.
            with contextlib.suppress(ConnectionError):
                statuses += (status_of(serving.answer(put(NAMES[1]))) for _ in range(3))
            status, printed, told = serving.ended(LONG)
        self.assertEqual(statuses[0], 507)
        self.assertTrue(set(statuses) <= {507, 200, None}, statuses)
        self.assertIn((status, printed), ((0, ""), (3, "")))
        self.assertRegex(told, r"\A\Z" if status == 0 else r"\Aarchive: K[124]\n\Z")
        self.assertIn(self.line(0, "waiting", db, "--at", "0"), (f"1 {NAMES[0]}\n", f"2 {NAMES[0]}\n"))


if __name__ == "__main__":
    main()
