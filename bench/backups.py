"""How long clients wait while the database that answers them is copied by bin/backup.

    python3 -m bench.backups ARCHIVE FOLDER [--files 25,250] [--log 14] [--rounds 3]

ARCHIVE is the program, FOLDER a new folder to work in, which has the backups, too. For each number (--files) an archive is given so many files of 4 MiB, and
is served. A client asks it for what is not there, again and again. The table has a row for each number, and one more for it once so many files (--log) came
over HTTP, which are in the log beside the database then:

    the longest that the client waited for a reply while a backup was made, from its begin to its end
    the same of a backup that copies all while the server is held, and nothing before
    the longest that it waited in as much time without a backup
    what the backup took in all, with the opening of the copy

Of several rounds (--rounds) each cell has the least.
"""
import contextlib
import os
import pathlib
import shutil
import subprocess
import sys
import threading
import time

from bench import measure, ways

ROOT = pathlib.Path(__file__).resolve().parent.parent
SIZE = 1 << 22
# Runs the program with another number of bytes from which on it copies before the server is held.
ALL_HELD = """
import importlib.machinery, importlib.util, sys
loader = importlib.machinery.SourceFileLoader("backup", sys.argv[1])
it = importlib.util.module_from_spec(importlib.util.spec_from_loader("backup", loader))
loader.exec_module(it)
it.LARGE = 1 << 60
sys.exit(it.main(sys.argv[2:]))
"""


class Client:
    """A client that asks again and again while the `with` lasts: the longest that it waited, in seconds."""

    def __init__(self, server):
        self.server, self.longest, self.is_over = server, 0, threading.Event()
        self.thread = threading.Thread(target=self.go)

    def __enter__(self):
        self.thread.start()
        return self

    def __exit__(self, *_):
        self.is_over.set()
        self.thread.join()

    def go(self):
        while not self.is_over.is_set():
            start = time.perf_counter()
            ways.check(self.server.ask("GET", "nothing")[0], 404)
            self.longest = max(self.longest, time.perf_counter() - start)


def files_in(folder, numbers):
    """Files of 4 MiB, each of its own bytes, one at a time."""
    for number in numbers:
        path = pathlib.Path(folder, f"file-{number}")
        path.write_bytes(os.urandom(SIZE))
        yield str(path)
        path.unlink()


def made(line, count):
    """An archive of `count` files, in a folder of its own."""
    folder = f"{line.folder}/{count}"
    os.makedirs(f"{folder}/copies")
    way = ways.Lines(line.archive, folder)
    way.make()
    for path in files_in(folder, range(count)):
        way.hand_in([path])
    return way


def backed_up(line, way, server, *words):
    """The longest that a client waits while a backup is made, and how long that takes, in seconds."""
    copies = f"{os.path.dirname(way.db)}/copies"
    path = f"{line.folder}/bin:{os.environ['PATH']}"
    with Client(server) as client:
        start = time.perf_counter()
        ran = subprocess.run([sys.executable, *words, way.db, copies], capture_output=True, text=True, check=False, env={**os.environ, "PATH": path})
        taken = time.perf_counter() - start
    ways.check((ran.returncode, ran.stderr), (0, ""))
    shutil.rmtree(os.path.dirname(ran.stdout.strip()))
    return client.longest, taken


def waited(server, seconds):
    """The longest that a client waits in `seconds` seconds without a backup."""
    with Client(server) as client:
        time.sleep(seconds)
    return client.longest


def figures(line, way, server):
    """The cells of a row."""
    rounds = []
    for _ in range(line.rounds):
        longest, taken = backed_up(line, way, server, ROOT / "bin/backup")
        held, _ = backed_up(line, way, server, "-c", ALL_HELD, ROOT / "bin/backup")
        rounds.append([longest, held, waited(server, min(taken, 5)), taken])
    least = [min(it) for it in zip(*rounds)]
    return [f"{measure.figure(it * 1000)} ms" for it in least[:3]] + [f"{measure.figure(least[3])} s"]


def size_of(way):
    """How large a database and its log are."""
    sizes = [os.path.getsize(way.db + end) / 1e6 for end in ("", "-wal")]
    return "{} MB, and {} MB of log".format(*map(measure.figure, sizes))


def rows(line, count):
    way = made(line, count)
    with measure.Server([line.archive, "serve", "--db", way.db, "--at", "0", "127.0.0.1:{port}", "1000000"]) as server:
        ways.check(server.ask("GET", "nothing")[0], 404)  # it is open then
        yield [size_of(way), *figures(line, way, server)]
        for path in files_in(os.path.dirname(way.db), range(count, count + line.log)):
            ways.check(server.ask("PUT", f"incoming/{os.path.basename(path)}", pathlib.Path(path).read_bytes())[0], 201)
        yield [size_of(way), *figures(line, way, server)]


def main():
    words = measure.words(__doc__)
    words.add_argument("--files", type=measure.numbers, default=[25, 250])
    words.add_argument("--log", type=int, default=14)
    words.add_argument("--rounds", type=int, default=3)
    line = words.parse_args()
    os.mkdir(line.folder)
    line.archive = os.path.abspath(line.archive)
    os.mkdir(f"{line.folder}/bin")
    os.symlink(line.archive, f"{line.folder}/bin/archive")
    with contextlib.ExitStack() as stack:
        stack.callback(shutil.rmtree, line.folder, ignore_errors=True)
        told = [row for count in line.files for row in rows(line, count)]
    print(measure.table(["The database", "longest wait", "all copied while held", "without a backup", "the backup"], told))


if __name__ == "__main__":
    main()
