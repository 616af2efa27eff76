"""Tests of configurations that an archive is given: of the rows in the file, by SQLite itself; of an archive that was served, and is
served again; and of a kill within `configure`, after which the archive has the one configuration or the other, whole. The program is
that of program.py. Without strace a kill comes only at random times, and if SQLite is too old for STRICT tables it reads nothing; the
tests say that they were skipped."""
import contextlib
import hashlib
import os
import re
import shutil
import socket
import sqlite3
import subprocess
import tempfile
import time

from tests.program import DATA, LONG, NAMES, PACKAGES, PROGRAM, Lines, Serving, get, put, put_of, replied
from tests.wants import main, needs, needs_strict_tables
from uploads import uploads

BOX = "Codename: box\nArchitectures: amd64 source\nComponents: main\n"
WIDE = "Codename: box\nArchitectures: amd64 arm64 source\nComponents: main\n"
LAB = "Codename: lab\nArchitectures: amd64\nComponents: main\n"

# 2016-07-02 05:20:50 UTC, when the queue is run, and ten seconds later.
RUN, LATER = 1467436850, 1467436860
DATES = {RUN: "Sat, 02 Jul 2016 05:20:50 UTC", LATER: "Sat, 02 Jul 2016 05:21:00 UTC"}

DEB = "pool/main/h/hello/hello_1.0-1_amd64.deb"

# What may change a file or leave it for good: a kill comes at each of these calls.
CALLS = ("pwrite64", "write", "fsync", "fdatasync", "ftruncate")

# The number of kills that come at random times.
KILLS = 40

ARM64 = """Format: 1.8
Date: Sat, 02 Jul 2016 05:00:00 +0000
Source: hello
Version: 1.0-1
Architecture: arm64
Distribution: box
Maintainer: Ann <ann@example.org>
Changes:
 hello (1.0-1) box; urgency=low
"""

CONTROL = """Package: hello
Version: 1.0-1
Architecture: arm64
Maintainer: Ann <ann@example.org>
Description: greets
"""


def release(moment, architectures, texts):
    """The Release of the suite box with sources, whose indices are empty but for these texts."""
    paths = [f"main/binary-{it}/Packages" for it in architectures] + ["main/source/Sources"]
    lines = ["Codename: box", f"Date: {DATES[moment]}", f"Architectures: {' '.join(architectures)}", "Components: main"]
    for title, name in (("MD5Sum", "md5"), ("SHA1", "sha1"), ("SHA256", "sha256")):
        lines.append(f"{title}:")
        for path in paths:
            text = texts.get(path, b"")
            lines.append(f" {hashlib.new(name, text).hexdigest()} {len(text)} {path}")
    return "".join(f"{line}\n" for line in lines)


SHOWN = {"main/binary-amd64/Packages": PACKAGES}
# The Release under each configuration, if the archive shows hello.
RELEASES = {BOX: release(RUN, ["amd64"], SHOWN), WIDE: release(LATER, ["amd64", "arm64"], SHOWN)}


def arm64_upload():
    """The files of hello for arm64, the .changes last."""
    files = {"hello_1.0-1_arm64.deb": b"arm64\n", "hello_1.0-1_arm64.control": CONTROL.encode()}
    text = ARM64 + uploads.lists_of(files, "utils optional ")
    return {**files, "hello_1.0-1_arm64.changes": text.encode()}


class Configurations(Lines):
    def conf(self, db, text):
        """Writes a configuration beside a database, and answers its path."""
        path = f"{os.path.dirname(db)}/new.conf"
        with open(path, "w", encoding="ascii") as it:
            it.write(text)
        return path

    def shows_hello(self):
        """A new database with an archive that shows hello."""
        db = self.made()
        self.line(0, "put", db, "--at", "0", *(f"{DATA}/{it}" for it in NAMES))
        self.line(0, "run", db, "--at", str(RUN))
        return db

    def configure(self, db, text, status=0, moment=LATER):
        return self.line(status, "configure", db, "--at", str(moment), self.conf(db, text))

    def text_at(self, db, path):
        return self.line(0, "show", db, path)

    def expect(self, db, text):
        """Checks all that an archive shows which shows hello and has this configuration."""
        self.assertEqual(self.line(0, "configuration", db), text)
        self.assertEqual(self.text_at(db, "dists/box/Release"), RELEASES[text])
        self.assertEqual(self.text_at(db, "dists/box/main/binary-amd64/Packages").encode(), PACKAGES)
        self.assertEqual(self.text_at(db, "dists/box/main/source/Sources"), "")
        self.assertEqual(self.text_at(db, DEB), "abc")
        self.assertEqual(self.line(0, "verdicts", db), f"accepted {NAMES[0]}\n")
        status = 0 if text == WIDE else 1
        self.line(status, "show", db, "dists/box/main/binary-arm64/Packages")


class Words(Configurations):
    def test_it_is_given_and_taken_back(self):
        db = self.shows_hello()
        self.expect(db, BOX)
        self.assertEqual(self.configure(db, WIDE), "")
        self.expect(db, WIDE)
        self.assertEqual(self.configure(db, WIDE, moment=LATER + 1), "")
        self.expect(db, WIDE)
        self.assertEqual(self.configure(db, LAB, status=1, moment=LATER + 2), "archive: K5\n")
        self.expect(db, WIDE)
        early = f"archive: the moment {RUN} lies before the date of box, which is {LATER}\n"
        self.assertEqual(self.configure(db, BOX, moment=RUN), early)
        self.expect(db, BOX)

    def test_a_change_of_many_bytes(self):
        """A text as long as one may be."""
        db = self.shows_hello()
        text = BOX + "Fill: " + "x" * (1_048_576 - len(BOX) - 7) + "\n"
        self.assertEqual(self.configure(db, text + "\n", status=1), "archive: F1 P10\n")
        self.assertEqual(self.configure(db, text), "archive: passed over Fill in box\n")
        self.assertEqual(self.line(0, "configuration", db), text)
        self.assertEqual(self.text_at(db, "dists/box/Release"), RELEASES[BOX])


@needs_strict_tables
class Rows(Configurations):
    def rows(self, db, table):
        with contextlib.closing(sqlite3.connect(db)) as held:
            return held.execute(f"SELECT * FROM {table}").fetchall()

    def others(self, db):
        """The rows of all tables but those that a configuration writes anew."""
        names = ("bodies", "pieces", "arrivals", "uploads", "wants", "items", "refs", "files")
        return {name: self.rows(db, name) for name in names}

    def test_other_rows_stay(self):
        db = self.shows_hello()
        self.line(0, "put", db, "--at", "7", self.conf(db, "a file without an upload"))
        before = self.others(db)
        for text in (WIDE, LAB + "\n" + WIDE, BOX):
            self.configure(db, text)
            self.assertEqual(self.others(db), before)
            self.assertEqual(self.rows(db, "meta"), [(3, text.encode())])

    def test_texts_and_dates_stand_in_the_order_of_the_configuration(self):
        db = self.shows_hello()
        self.configure(db, LAB + "\n" + WIDE)
        paths = ["lab/Release", "lab/main/binary-amd64/Packages", "box/Release"]
        paths += [f"box/main/{it}" for it in ("binary-amd64/Packages", "binary-arm64/Packages", "source/Sources")]
        with contextlib.closing(sqlite3.connect(db)) as held:
            self.assertEqual([it for (it,) in held.execute("SELECT path FROM texts ORDER BY rowid")], [f"dists/{it}" for it in paths])
            self.assertEqual(held.execute("SELECT suite, moment FROM dates ORDER BY rowid").fetchall(), [("lab", LATER), ("box", LATER)])
            self.assertEqual(held.execute("PRAGMA integrity_check").fetchall(), [("ok",)])
            self.assertEqual(held.execute("PRAGMA foreign_key_check").fetchall(), [])


class Served(Configurations):
    def test_a_service_that_is_ended_and_started_again(self):
        db = self.made()
        with Serving(db, 100, at=str(RUN)) as serving:
            for name in NAMES:
                self.assertEqual(serving.answer(put(name)), replied("201 Created", b"new\n"))
            self.assertEqual(serving.answer(b"POST /queue/run HTTP/1.1\r\n\r\n"), replied("200 OK", f"accepted {NAMES[0]}\n".encode()))
            # While it serves it has the file for itself.
            self.assertEqual(self.configure(db, WIDE, status=3), "archive: K2\n")
            self.assertEqual(serving.answer(get("dists/box/Release")), replied("200 OK", RELEASES[BOX].encode()))
            serving.kill(15)
            serving.ended()
        self.assertEqual(self.configure(db, WIDE), "")
        with Serving(db, 100, at=str(LATER)) as serving:
            self.assertEqual(serving.answer(get("dists/box/Release")), replied("200 OK", RELEASES[WIDE].encode()))
            self.assertEqual(serving.answer(get("dists/box/main/binary-arm64/Packages")), replied("200 OK", b""))
            self.assertEqual(serving.answer(get("dists/box/main/binary-amd64/Packages")), replied("200 OK", PACKAGES))
            for name, body in arm64_upload().items():
                self.assertEqual(serving.answer(put_of(name, body)), replied("201 Created", b"new\n"))
            judged = serving.answer(b"POST /queue/run HTTP/1.1\r\n\r\n")
            self.assertEqual(judged, replied("200 OK", b"accepted hello_1.0-1_arm64.changes\n"))
            shown = serving.answer(get("dists/box/main/binary-arm64/Packages"))
            self.assertIn(b"\r\n\r\nPackage: hello\nVersion: 1.0-1\nArchitecture: arm64\n", shown)

    def test_no_request_changes_it(self):
        with Serving(self.made(), 3) as serving:
            self.assertEqual(serving.answer(b"POST /configure HTTP/1.1\r\n\r\n"), replied("404 Not Found", b"404 Not Found\n"))
            refused = serving.answer(b"PUT /configuration HTTP/1.1\r\nContent-Length: 0\r\n\r\n")
            self.assertTrue(refused.startswith(b"HTTP/1.1 405 Method Not Allowed\r\n"), refused)
            self.assertEqual(serving.answer(get("configuration")), replied("200 OK", BOX.encode()))


class Kills(Configurations):
    """`configure` that is killed by SIGKILL."""

    def setUp(self):
        room = tempfile.TemporaryDirectory()
        self.addCleanup(room.cleanup)
        self.folder, self.first = room.name, self.shows_hello()
        self.wide = self.conf(self.first, WIDE)

    def copied(self):
        """The database as it was before."""
        for name in os.listdir(self.folder):
            os.unlink(f"{self.folder}/{name}")
        return shutil.copy(self.first, f"{self.folder}/a.db")

    def words(self, db):
        return [PROGRAM, "configure", "--db", db, "--at", str(LATER), self.wide]

    def left(self, db):
        """Checks what a kill left, and that the command may be given again. Says whether it had been done."""
        text = self.line(0, "configuration", db)
        self.assertIn(text, (BOX, WIDE))
        self.expect(db, text)
        self.configure(db, WIDE)
        self.expect(db, WIDE)
        return text == WIDE

    def calls(self):
        """The calls of a command that is not killed, each as its name and how many of this name there are up to it."""
        trace, seen = f"{self.folder}/trace", dict.fromkeys(CALLS, 0)
        db = self.copied()
        subprocess.run(["strace", "-f", "-qq", "-o", trace, "-e", f"trace={','.join(CALLS)}", *self.words(db)], check=True, timeout=LONG)
        with open(trace, encoding="utf-8") as it:
            for name in re.findall(r"(?m)^(?:\d+ +)?(\w+)\(", it.read()):
                seen[name] += 1
                yield name, seen[name]

    @needs("strace")
    def test_at_each_call(self):
        done = []
        for name, number in list(self.calls()):
            with self.subTest(call=name, number=number):
                db = self.copied()
                inject = ["-e", f"trace={name}", "-e", f"inject={name}:signal=SIGKILL:when={number}"]
                subprocess.run(["strace", "-f", "-qq", "-o", os.devnull, *inject, *self.words(db)], check=False, timeout=LONG)
                done.append(self.left(db))
        self.assertIn(False, done)
        print(f"{len(done)} calls of `configure` were killed one by one; behind {sum(done)} it had been done.")

    def test_at_times(self):
        db = self.copied()
        start = time.monotonic()
        subprocess.run(self.words(db), check=True, timeout=LONG)
        whole, done = time.monotonic() - start, []
        for part in range(KILLS):
            db = self.copied()
            with subprocess.Popen(self.words(db)) as process:
                with contextlib.suppress(subprocess.TimeoutExpired):
                    process.wait(timeout=whole * (part + 1) / KILLS)
                process.kill()
            done.append(self.left(db))
        print(f"`configure` was killed at {KILLS} times of {whole * 1000:.0f} ms; behind {sum(done)} it had been done.")


class Paths(Lines):
    """What the path of a configuration may lead to."""

    def lines_on(self, conf):
        """A line of each command that reads a configuration."""
        db = self.made()
        new = f"{os.path.dirname(db)}/other.db"
        yield "check", conf
        yield "init", "--db", new, "--at", "0", conf
        yield "configure", "--db", db, "--at", "0", conf
        yield "migrate", "--from", db, "--db", new, "--at", "0", conf

    def ran(self, *words, **more):
        ran = subprocess.run([PROGRAM, *words], capture_output=True, check=False, timeout=LONG, **more)
        return ran.returncode, ran.stdout.decode(), ran.stderr.decode()

    def test_what_a_read_may_wait_for_is_refused_at_once(self):
        with tempfile.TemporaryDirectory() as folder, socket.socket(socket.AF_UNIX) as listener:
            pipe, link, server = f"{folder}/pipe", f"{folder}/link", f"{folder}/socket"
            os.mkfifo(pipe)
            os.symlink("pipe", link)
            listener.bind(server)
            for conf in (pipe, link, server, "/dev/zero"):
                for words in self.lines_on(conf):
                    with self.subTest(words[0], conf=conf):
                        self.assertEqual(self.ran(*words), (1, "", f"archive: cannot read {conf}\n"))

    def test_what_the_caller_has_open_is_read(self):
        db = self.made()
        told = self.ran("check", self.conf_at(db))
        self.assertEqual((told[0], told[2]), (0, ""))
        self.assertEqual(self.ran("check", "/dev/stdin", input=BOX.encode()), told)
        reader, writer = os.pipe()
        os.write(writer, BOX.encode())
        os.close(writer)
        self.assertEqual(self.ran("check", f"/dev/fd/{reader}", pass_fds=[reader]), told)
        os.close(reader)
        link = f"{os.path.dirname(db)}/link.conf"
        os.symlink("box.conf", link)
        self.assertEqual(self.ran("check", link), told)

    @needs("bash")
    def test_what_a_shell_hands_over_is_read(self):
        ran = subprocess.run(["bash", "-c", f"{PROGRAM} check <(printf '%s' \"$1\")", "bash", BOX], capture_output=True, check=False, timeout=LONG)
        self.assertEqual((ran.returncode, ran.stderr), (0, b""))
        self.assertTrue(ran.stdout.startswith(b"suite box\n"), ran.stdout)

    def conf_at(self, db):
        return f"{os.path.dirname(db)}/box.conf"


if __name__ == "__main__":
    main()
