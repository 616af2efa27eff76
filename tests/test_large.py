"""Tests of files that are much larger than 4 MiB, in an archive whose MaxFileSize allows them: what comes is what is shown, sent and exported, a program
that is killed within one delivers nothing of it, and none is held whole, here, or by with_sidecars and upload. The program is that of program.py.

    python3 -m tests.test_large [MIB [KILLS]]

MIB is the size of the file, 48 if it is not said, and KILLS the number of kills, 8 if it is not said. The memory of `serve` is counted after its
opening, which holds all bodies."""
import contextlib
import dataclasses
import hashlib
import os
import pathlib
import random
import re
import shutil
import signal
import sqlite3
import subprocess
import sys
import tempfile
import threading
import time
import unittest

from tests.program import LONG, PROGRAM, ROOT, SOON, Lines, Serving, get, put_of, replied, rest, seconds_since, status_of, wait_until_read
from tests.wants import main, missing, needs, needs_file, needs_that
from uploads import uploads

NEW, AGAIN = replied("201 Created", b"new\n"), replied("200 OK", b"again\n")
SHORT, TOO_LARGE = replied("400 Bad Request", b"400 Bad Request\n"), replied("413 Payload Too Large", b"413 Payload Too Large\n")

MEBIBYTE, PIECE, DAY = 1 << 20, 1 << 16, 86_400
# The sizes of the file, of those that are killed, and of a small one, of which show prints more than a pipe holds.
SIZE, KILLED, SMALL = 48 * MEBIBYTE, 48 * MEBIBYTE, 4 * PIECE
KILLS = 8

# How many bytes more than the open archive, or than for a small file, anything may take.
MOST_MORE = 12 * MEBIBYTE
# How many bytes more than for a file of 4 KiB with_sidecars and upload may take.
MOST_MORE_OF_TOOLS = 4 * MEBIBYTE

# What starts a line, and writes the most memory that it takes, in KiB, to a file. It is small itself, since a process begins with that of its parent.
MEASURE = """import os, sys
process = os.posix_spawn(sys.argv[2], sys.argv[2:], os.environ)
_, status, used = os.wait4(process, 0)
with open(sys.argv[1], "w") as file:
    file.write(str(used.ru_maxrss))
sys.exit(os.waitstatus_to_exitcode(status) % 256)
"""

# What runs a tool that is written in Python, and writes its status, as the system has it, to a file at its end.
MEASURE_TOOL = """import atexit, runpy, sys
def end():
    with open("/proc/self/status") as status, open(path, "w") as file:
        file.write(status.read())
path = sys.argv[1]
sys.argv = sys.argv[2:]
atexit.register(end)
runpy.run_path(sys.argv[0], run_name="__main__")
"""


def mebibytes():
    """What MaxFileSize says here: more than the file has, if it may say so."""
    return min(1024, max(64, SIZE // MEBIBYTE))


def limit():
    """How many seconds something may take that reads or writes the whole file."""
    return LONG + 2 * SIZE // MEBIBYTE


def can_set_back():
    """Whether a process can have its memory counted anew."""
    try:
        with open("/proc/self/clear_refs", "w", encoding="ascii") as it:
            it.write("5")
    except OSError:
        return False
    return True


# ---- the files


@dataclasses.dataclass(frozen=True)
class File:
    """A file with its size, and its digests by their names."""

    path: str
    size: int
    digests: dict

    @property
    def name(self):
        return os.path.basename(self.path)


def piece_of(name, number):
    """A piece of the data of a package: no two are the same, and none compresses."""
    return hashlib.shake_128(f"{name} {number}".encode()).digest(PIECE)


def parts_of(name, size):
    """The bytes of a package file of this size, part by part. Its control paragraph is good, and nobody looks into its data."""
    members = {"debian-binary": b"2.0\n", "control.tar.gz": uploads.tar_of({"./control": uploads.control_of(uploads.Package(name))})}
    begin = uploads.ar_of(members)
    left = size - len(begin) - 60
    yield begin + b"%-16s%-12d%-6d%-6d%-8o%-10d`\n" % (b"data.tar", uploads.MOMENT, 0, 0, 0o100644, left)
    for number in range(-(-left // PIECE)):
        yield piece_of(name, number)[: left - number * PIECE]


def package_file(folder, name, size):
    """Writes the package file of a package, and answers it."""
    path = f"{folder}/{name}_1.0-1_amd64.deb"
    digests = {it: hashlib.new(it) for it in uploads.LISTS.values()}
    with open(path, "wb") as file:
        for part in parts_of(name, size):
            file.write(part)
            for it in digests.values():
                it.update(part)
    made = File(path, os.path.getsize(path), {it: digest.hexdigest() for it, digest in digests.items()})
    if made.size != size:
        raise AssertionError(f"{path} has {made.size} bytes, not {size}")
    return made


def file_at(path):
    """The file that is at a path."""
    digests = {it: hashlib.new(it) for it in uploads.LISTS.values()}
    with open(path, "rb") as file:
        while block := file.read(PIECE):
            for it in digests.values():
                it.update(block)
    return File(path, os.path.getsize(path), {it: digest.hexdigest() for it, digest in digests.items()})


def file_of(path, body):
    """Writes a file with these contents, and answers it."""
    pathlib.Path(path).write_bytes(body)
    return File(path, len(body), {it: hashlib.new(it, body).hexdigest() for it in uploads.LISTS.values()})


def changes_file(folder, name, files):
    """Writes the .changes of a package that lists these files, and answers it."""
    text = uploads.RECORD.format(date=uploads.DATE, source=name, version="1.0-1", architectures="amd64")
    for field, digest in uploads.LISTS.items():
        place = "utils optional " if field == "Files" else ""
        text += f"{field}:\n" + "".join(f" {it.digests[digest]} {it.size} {place}{it.name}\n" for it in files)
    return file_of(f"{folder}/{name}_1.0-1_amd64.changes", text.encode())


def upload_of(folder, name, deb):
    """Writes the sidecar and the .changes of a package file to a folder, and answers all three, the .changes last."""
    sidecar = file_of(f"{folder}/{name}_1.0-1_amd64.control", uploads.control_of(uploads.Package(name)))
    return [deb, sidecar, changes_file(folder, name, [deb, sidecar])]


def pool_path(name):
    return f"pool/main/{name[0]}/{name}/{name}_1.0-1_amd64.deb"


FILES = {}


def setUpModule():
    """Writes the files that all tests share."""
    if shutil.disk_usage(tempfile.gettempdir()).free < 8 * SIZE + (1 << 30):
        raise missing(f"room for {8 * SIZE // MEBIBYTE + 1024} MiB in {tempfile.gettempdir()}")
    folder = tempfile.mkdtemp(prefix="large-")
    unittest.addModuleCleanup(shutil.rmtree, folder)
    for name, size in (("large", SIZE), ("tiny", 4096), ("small", SMALL), ("killed", KILLED)):
        FILES[name] = package_file(folder, name, size)


# ---- what is done with them


def head_of(name, size):
    """The head of a request that delivers a file of this size."""
    return f"PUT /incoming/{name} HTTP/1.1\r\nContent-Length: {size}\r\n\r\n".encode()


def send(client, file, count=None):
    """Sends a request that delivers a file, with this many of its bytes, or with all."""
    client.sendall(head_of(file.name, file.size))
    left = file.size if count is None else count
    with open(file.path, "rb") as it:
        while left:
            block = it.read(min(left, PIECE))
            client.sendall(block)
            left -= len(block)


def sent(serving, file, count=None):
    """The answer to such a request, after which nothing more comes."""
    client = serving.connected()
    with contextlib.suppress(ConnectionError):
        send(client, file, count)
        client.shutdown(1)
    return rest(client)


def got(serving, path):
    """The status of the reply to a GET, and the size and the SHA-256 of its body."""
    client, digest, size = serving.connected(), hashlib.sha256(), 0
    with client, client.makefile("rb") as reply:
        client.sendall(get(path))
        first = reply.readline()
        while reply.readline() not in (b"\r\n", b""):
            pass
        while block := reply.read(PIECE):
            digest.update(block)
            size += len(block)
    return status_of(first), size, digest.hexdigest()


def body_of(reply):
    return reply.partition(b"\r\n\r\n")[2].decode()


def post(serving, path):
    """The text that is the answer to a POST."""
    reply = serving.answer(f"POST /{path} HTTP/1.1\r\n\r\n".encode())
    if status_of(reply) != 200:
        raise AssertionError(f"{path}: {reply[:200]}")
    return body_of(reply)


class Memory:
    """The memory of a process that has opened its archive, in bytes. That which it takes at most counts from the moment on at which it is set back."""

    def __init__(self, process):
        self.path = f"/proc/{process.pid}"
        self.first = self.value("VmRSS")

    def value(self, name):
        with open(f"{self.path}/status", encoding="ascii") as it:
            return 1024 * next(int(line.split()[1]) for line in it if line.startswith(f"{name}:"))

    def set_back(self):
        with open(f"{self.path}/clear_refs", "w", encoding="ascii") as it:
            it.write("5")

    def more(self):
        """How many bytes more than at first it has taken at most since it was set back."""
        return self.value("VmHWM") - self.first


def ended(line):
    """Runs a line in a process group of its own, which is killed if it takes too long. Answers its status and what it prints on both outputs."""
    with subprocess.Popen(line, start_new_session=True, stdin=subprocess.DEVNULL, stdout=subprocess.PIPE, stderr=subprocess.PIPE) as process:
        try:
            printed, told = process.communicate(timeout=limit())
        except BaseException:
            os.killpg(process.pid, signal.SIGKILL)
            raise
    return process.returncode, printed.decode(errors="replace"), told.decode(errors="replace")


def print_of(path):
    """The size and the SHA-256 of a file."""
    digest = hashlib.sha256()
    with open(path, "rb") as file:
        while block := file.read(PIECE):
            digest.update(block)
    return os.path.getsize(path), digest.hexdigest()


class Measured(unittest.TestCase):
    def room(self):
        """A new folder."""
        room = tempfile.TemporaryDirectory()
        self.addCleanup(room.cleanup)
        return room.name

    def check_most(self, what, more, most):
        """Checks that no more memory was taken than this."""
        print(f"{what}, {SIZE // MEBIBYTE} MiB: {more / MEBIBYTE:.1f} MiB more.")
        self.assertLessEqual(more, most, what)

    def used(self, tool, *words):
        """What a tool prints that is written in Python, and how many bytes of memory it takes at most."""
        path = f"{self.room()}/status"
        status, printed, told = ended([sys.executable, "-c", MEASURE_TOOL, path, f"{ROOT}/bin/{tool}", *words])
        self.assertEqual((status, told), (0, ""), printed)
        return printed, 1024 * int(re.search(r"^VmHWM:\s+(\d+) kB$", pathlib.Path(path).read_text(encoding="ascii"), re.M)[1])

    def changes(self, name):
        """The path of a .changes that lists the package file beside it alone, as dpkg-buildpackage writes it."""
        folder, file = self.room(), FILES[name]
        os.link(file.path, f"{folder}/{file.name}")
        return changes_file(folder, name, [file]).path


class Larger(Measured, Lines):
    """An archive that takes large files."""

    def made(self, more=""):
        """A new database with an archive, whose configuration may say more."""
        folder = self.room()
        db, conf = f"{folder}/box.db", pathlib.Path(folder, "box.conf")
        conf.write_text(f"Codename: box\nArchitectures: amd64 source\nComponents: main\nMaxFileSize: {mebibytes()}\n{more}", encoding="ascii")
        self.line(0, "init", db, "--at", "0", str(conf))
        return db

    def ran(self, word, db, *words):
        """What a line of the program prints, which has to be done."""
        status, printed, told = ended([PROGRAM, word, "--db", db, *words])
        self.assertEqual((status, told), (0, ""), printed)
        return printed

    def taken(self, word, db, *words):
        """What a line of the program prints, which has to be done, and how many bytes of memory it takes at most."""
        path = f"{self.room()}/memory"
        status, printed, told = ended([sys.executable, "-c", MEASURE, path, PROGRAM, word, "--db", db, *words])
        self.assertEqual((status, told), (0, ""), printed)
        return printed, 1024 * int(pathlib.Path(path).read_text(encoding="ascii"))

    def expect_bodies(self, db, bodies):
        """Checks which bodies a database has that no process has open, by SQLite itself: files of these sizes, whole, and no pieces of another."""
        if sqlite3.sqlite_version_info < (3, 37):
            return  # it has no STRICT tables
        with contextlib.closing(sqlite3.connect(db)) as held:
            sizes = [it for it, in held.execute("SELECT size FROM bodies ORDER BY size")]
            pieces = held.execute("SELECT count(*), coalesce(sum(length(bytes)), 0) FROM pieces").fetchone()
        self.assertEqual(sizes, sorted(bodies))
        self.assertEqual(pieces, (sum(-(-it // PIECE) for it in bodies), sum(bodies)))


@needs_that(can_set_back(), "/proc/self/clear_refs that can be written to")
class Served(Larger):
    def begun(self, db, *words, at="0"):
        """`serve` over a database, which has opened it, and its memory."""
        serving = Serving(db, 1_000_000, *words, at=at)
        self.addCleanup(serving.__exit__)
        end = time.monotonic() + limit()
        while not (reply := self.first_answer(serving)) and time.monotonic() < end:
            time.sleep(0.1)
        self.assertEqual(status_of(reply), 200, serving.said())
        return serving, Memory(serving.process)

    def first_answer(self, serving):
        """The answer to a request, or nothing while the archive is being opened and the program is there."""
        with contextlib.suppress(ConnectionRefusedError):
            return serving.answer(get("verdicts"))
        if not serving.is_running():
            raise AssertionError(serving.said())
        return b""

    def stop(self, serving):
        """Ends `serve`, which then has the database no more."""
        serving.kill(signal.SIGTERM)
        self.assertEqual(serving.ended(), (-signal.SIGTERM, "", ""))

    def check(self, what, memory, do, wanted):
        """Does something, and checks what it gives and how much memory `serve` takes for it."""
        memory.set_back()
        self.assertEqual(do(), wanted, what)
        self.check_most(what, memory.more(), MOST_MORE)

    def test_what_comes_is_stored_piece_by_piece(self):
        """A file, the same again, one that is cut off, and the next after it, which takes away what came of that."""
        db, large, tiny = self.made(), FILES["large"], FILES["tiny"]
        serving, memory = self.begun(db)
        self.check("A PUT that is cut off", memory, lambda: sent(serving, large, large.size - 1), SHORT)
        self.check("The delivery after it", memory, lambda: sent(serving, tiny), NEW)
        self.stop(serving)
        self.expect_bodies(db, [tiny.size])
        serving, memory = self.begun(db)
        self.check("A PUT", memory, lambda: sent(serving, large), NEW)
        # The archive that is open now has the file: it holds eight bytes for each page of its database.
        self.check("The same PUT", Memory(serving.process), lambda: sent(serving, large), AGAIN)
        self.stop(serving)
        self.expect_bodies(db, [tiny.size, large.size])

    def test_what_is_in_the_pool_is_sent_and_exported(self):
        """An export that `serve` makes, and a GET."""
        folder, db = self.room(), self.made()
        tree, large = f"{folder}/tree", FILES["large"]
        serving, memory = self.begun(db, "--export", tree)
        for file in upload_of(folder, "large", large):
            self.assertEqual(sent(serving, file), NEW)
        accepted = "accepted large_1.0-1_amd64.changes\n"
        # The export after the run is done once the next request is answered.
        self.check("A run and an export of serve", memory, lambda: (post(serving, "queue/run"), body_of(serving.answer(get("verdicts")))), (accepted, accepted))
        self.assertEqual(print_of(f"{tree}/{pool_path('large')}"), (large.size, large.digests["sha256"]))
        wanted = 200, large.size, large.digests["sha256"]
        self.check("A GET", memory, lambda: got(serving, pool_path("large")), wanted)

    def test_what_goes_is_removed_piece_by_piece(self):
        """A package that leaves the last suite, after its arrival was cleaned; and an arrival that is cleaned."""
        folder, db = self.room(), self.made("KeepDays: 1\n")
        large = FILES["large"]
        files = upload_of(folder, "large", large)
        self.assertEqual(self.ran("put", db, "--at", "0", *(it.path for it in files)), "".join(f"new {it.name}\n" for it in files))
        self.assertEqual(self.ran("run", db, "--at", "0"), "accepted large_1.0-1_amd64.changes\n")
        self.assertEqual(self.ran("clean", db, "--at", str(DAY)), "3\n")
        self.expect_bodies(db, [large.size])
        serving, memory = self.begun(db, at=str(DAY))
        self.check("A removal", memory, lambda: post(serving, "remove/box/large"), "1\n")
        self.assertEqual(status_of(serving.answer(get(pool_path("large")))), 404)
        self.stop(serving)
        self.expect_bodies(db, [])
        self.assertEqual(self.ran("put", db, "--at", str(DAY), large.path), f"new {large.name}\n")
        serving, memory = self.begun(db, at=str(2 * DAY))
        self.check("A cleaning", memory, lambda: post(serving, "queue/clean"), "1\n")
        self.assertEqual(sent(serving, FILES["tiny"]), NEW)
        self.stop(serving)
        self.expect_bodies(db, [FILES["tiny"].size])

    def test_what_is_too_large_is_not_read(self):
        """The answer comes at once, though no byte of the body does. Where a body is on its way, it is read neither, and nothing is stored."""
        db, most = self.made(), mebibytes() * MEBIBYTE
        serving, memory = self.begun(db)
        memory.set_back()
        texts = ((name, 4_194_305) for name in (".hid", "a.dsc", "a.control", "a.changes"))
        for name, size in (("a.deb", most + 1), ("a.deb", 9_999_999_999), *texts):
            start = time.monotonic()
            with serving.connected() as client:
                client.sendall(head_of(name, size))
                self.assertEqual(rest(client), TOO_LARGE, name)
            # A silent client is let go after 30 seconds.
            self.assertLess(seconds_since(start), 25)
        for size in (most + 1, 4_294_967_296):
            self.assertEqual(status_of(serving.answer(head_of("a.deb", size) + bytes(4 * PIECE))), 413)
        self.check_most("Files that are too large", memory.more(), MOST_MORE)
        self.stop(serving)
        self.expect_bodies(db, [])
        # To the byte: one of the largest size is waited for.
        serving, _ = self.begun(db)
        self.assertEqual(serving.answer(head_of("a.deb", most) + b"abc"), SHORT)
        self.assertEqual(serving.answer(put_of("a.dsc", bytes(4_194_304))), NEW)
        self.stop(serving)
        self.expect_bodies(db, [4_194_304])


class Alone(Larger):
    """Lines of the program, each over a database that it opens."""

    def test_put(self):
        """Over an archive that holds nothing: neither by itself, nor in a list."""
        large, tiny = FILES["large"], FILES["tiny"]
        for word, name, words in (("put", "A put", lambda it: [it.path]), ("batch", "A list", self.list_of)):
            db = self.made()
            printed, first = self.taken(word, db, "--at", "0", *words(tiny))
            self.assertEqual(printed, f"new {tiny.name}\n")
            printed, most = self.taken(word, db, "--at", "0", *words(large))
            self.assertEqual(printed, f"new {large.name}\n")
            self.expect_bodies(db, [tiny.size, large.size])
            self.check_most(name, most - first, MOST_MORE)
            self.assertEqual(self.ran(word, db, "--at", "0", *words(large)), f"again {large.name}\n")

    def list_of(self, file):
        """The path of a list that delivers a file."""
        path = pathlib.Path(self.room(), "list")
        path.write_text(f"put {file.path}\n", encoding="utf-8")
        return [str(path)]

    def test_a_file_that_is_too_large(self):
        """It is refused by its length: nothing of it is there to be read."""
        db = self.made()
        path = f"{self.room()}/sparse.deb"
        with open(path, "wb") as it:
            it.truncate(mebibytes() * MEBIBYTE + 1)
        start = time.monotonic()
        self.assertEqual(self.line(1, "put", db, "--at", "0", path), "refused Q2 sparse.deb\n")
        self.assertLess(seconds_since(start), SOON)
        self.expect_bodies(db, [])

    def held(self):
        """A database whose suite shows a large package and a small one."""
        folder, db = self.room(), self.made()
        for name in ("large", "small"):
            self.ran("put", db, "--at", "0", *(it.path for it in upload_of(folder, name, FILES[name])))
        lines = self.ran("run", db, "--at", "0")
        self.assertEqual(sorted(lines.splitlines()), ["accepted large_1.0-1_amd64.changes", "accepted small_1.0-1_amd64.changes"])
        return db

    def shown(self, db, file, name):
        """The size and the SHA-256 of what `show` prints, and how many bytes of memory it takes at most from when it has begun to print until what is left
        fits into the pipe. The opening, which is before that, takes more."""
        line = [PROGRAM, "show", "--db", db, pool_path(name)]
        with subprocess.Popen(line, stdin=subprocess.DEVNULL, stdout=subprocess.PIPE, bufsize=0) as process:
            timer = threading.Timer(limit(), process.kill)
            timer.start()
            try:
                digest, most = hashlib.sha256(process.stdout.read(1)), 0
                memory, size = Memory(process), 1
                memory.set_back()
                while block := process.stdout.read(min(PIECE, max(1, file.size - 2 * PIECE - size)) if not most else PIECE):
                    digest.update(block)
                    size += len(block)
                    if size == file.size - 2 * PIECE:
                        most = memory.value("VmHWM")
                self.assertEqual(process.wait(SOON), 0)
            finally:
                timer.cancel()
                process.kill()
        return size, digest.hexdigest(), most

    @needs_that(can_set_back(), "/proc/self/clear_refs that can be written to")
    def test_show(self):
        db, peaks = self.held(), {}
        for name in ("small", "large"):
            file = FILES[name]
            size, digest, peaks[name] = self.shown(db, file, name)
            self.assertEqual((size, digest), (file.size, file.digests["sha256"]))
            self.assertGreater(peaks[name], 0)
        self.check_most("A show", peaks["large"] - peaks["small"], MOST_MORE)

    def test_export(self):
        """It takes no more than an opening does, which holds all bodies once."""
        db, tree = self.held(), f"{self.room()}/tree"
        _, first = self.taken("verdicts", db)
        _, most = self.taken("export", db, "--at", "0", tree)
        for name in ("large", "small"):
            self.assertEqual(print_of(f"{tree}/{pool_path(name)}"), (FILES[name].size, FILES[name].digests["sha256"]))
        self.check_most("An export", most - first, MOST_MORE)


class Killed(Larger):
    """`serve` that is killed within a PUT."""

    def test_a_file_within_which_it_was_killed_was_not_delivered(self):
        """Whatever came of it, the next archive opens, takes another file, and then has nothing else. At the end the whole file is new, and is the one that
        it was."""
        db, file, chance = self.made(), FILES["killed"], random.Random(48)
        others = []
        for number in range(KILLS):
            count = file.size * number // KILLS + chance.randrange(file.size // KILLS)
            with Serving(db, 1_000_000) as serving, serving.connected() as client:
                send(client, file, count)
                if chance.random() < 0.5:
                    wait_until_read(client)
                serving.kill(signal.SIGKILL)
                serving.process.wait()
            body = b"%d" % number
            others.append(len(body))
            with Serving(db, 2) as serving:
                self.assertEqual(serving.answer(put_of(f"other{number}.deb", body)), NEW)
                self.assertEqual(serving.answer(put_of(f"other{number}.deb", body)), AGAIN)
                self.assertEqual(serving.ended(), (0, "", ""))
            self.expect_bodies(db, others)
        with Serving(db, 1_000_000) as serving:
            self.assertEqual(sent(serving, file), NEW)
            serving.kill(signal.SIGKILL)
            serving.process.wait()
        with Serving(db, 1) as serving:
            self.assertEqual(sent(serving, file), AGAIN)
            self.assertEqual(serving.ended(), (0, "", ""))
        self.expect_bodies(db, [*others, file.size])
        print(f"{KILLS} kills within a PUT of {file.size // MEBIBYTE} MiB.")


@needs("dpkg-deb")
@needs_file("/proc/self/status")
class WithSidecars(Measured):
    """with_sidecars, whose memory is that of a small file."""

    def test_with_sidecars(self):
        peaks = {}
        for name in ("tiny", "large"):
            ready, file = f"{self.room()}/ready", FILES[name]
            printed, peaks[name] = self.used("with_sidecars", "--most", str(mebibytes()), self.changes(name), ready)
            names = [file.name, f"{name}_1.0-1_amd64.control", f"{name}_1.0-1_amd64.changes"]
            self.assertEqual(printed, "".join(f"{ready}/{it}\n" for it in names))
            with open(f"{ready}/{file.name}", "rb") as made, open(file.path, "rb") as given:
                while block := given.read(PIECE):
                    self.assertTrue(made.read(PIECE) == block, "the copy differs")
                self.assertEqual(made.read(1), b"")
        self.check_most("with_sidecars", peaks["large"] - peaks["tiny"], MOST_MORE_OF_TOOLS)


@needs("dpkg-deb")
@needs_file("/proc/self/status")
class Uploads(Larger):
    """upload, whose memory is that of a small file."""

    def test_upload(self):
        peaks = {}
        with Serving(self.made(), 1_000_000) as serving:
            url = "http://%s:%d" % serving.address
            serving.answer(get("verdicts"))
            for name in ("tiny", "large"):
                words = ("--most", str(mebibytes()), "--run", "--within", str(limit()))
                printed, peaks[name] = self.used("upload", url, self.changes(name), *words)
                names = [FILES[name].name, f"{name}_1.0-1_amd64.control", f"{name}_1.0-1_amd64.changes"]
                self.assertEqual(printed, "".join(f"new {it}\n" for it in names) + f"accepted {names[-1]}\n")
        self.check_most("upload", peaks["large"] - peaks["tiny"], MOST_MORE_OF_TOOLS)

    def test_what_the_archive_does_not_take(self):
        """upload says which field the archive goes by."""
        folder = self.room()
        db, conf = f"{folder}/box.db", pathlib.Path(folder, "box.conf")
        conf.write_text("Codename: box\nArchitectures: amd64 source\nComponents: main\n", encoding="ascii")
        self.line(0, "init", db, "--at", "0", str(conf))
        with Serving(db, 1_000_000) as serving:
            serving.answer(get("verdicts"))
            line = [sys.executable, f"{ROOT}/bin/upload", "http://%s:%d" % serving.address, self.changes("large"), "--most", str(mebibytes())]
            status, printed, told = ended(line)
        self.assertEqual(status, 1, told)
        first, second = printed.splitlines()
        self.assertEqual(first, f"refused 413 Payload Too Large {FILES['large'].name}")
        self.assertIn("MaxFileSize", second)
        self.expect_bodies(db, [])


if __name__ == "__main__":
    if len(sys.argv) > 1 and sys.argv[1].isdigit():
        SIZE = int(sys.argv.pop(1)) * MEBIBYTE
    if len(sys.argv) > 1 and sys.argv[1].isdigit():
        KILLS = int(sys.argv.pop(1))
    main()
