"""What runs of a program take: processor time, of the user and of the system, the time that passes, and the most memory."""
import argparse
import contextlib
import ctypes
import dataclasses
import hashlib
import os
import platform
import shlex
import socket
import sqlite3
import subprocess
import sys
import tempfile
import time

from tests.ports import free_port

# The word of prctl(2) that has a process take over the children of its children.
PR_SET_CHILD_SUBREAPER = 36


def name():
    """The name of the module that measures."""
    return f"bench.{os.path.basename(sys.argv[0]).removesuffix('.py')}"


def stop(why):
    """Ends the module that measures."""
    sys.exit(f"{name()}: {why}")


@dataclasses.dataclass(frozen=True)
class Taken:
    """What something took: processor time and the time that passed in seconds, and the most memory in KiB."""

    processor: float
    elapsed: float
    peak: int

    def __add__(self, other):
        return Taken(self.processor + other.processor, self.elapsed + other.elapsed, max(self.peak, other.peak))

    def __sub__(self, other):
        return Taken(self.processor - other.processor, self.elapsed - other.elapsed, self.peak)

    def __truediv__(self, count):
        return Taken(self.processor / count, self.elapsed / count, self.peak)

    def least(self, other):
        """The less of two times, and of two sizes."""
        return Taken(min(self.processor, other.processor), min(self.elapsed, other.elapsed), min(self.peak, other.peak))


def total(parts):
    """What all of these took together."""
    first, *others = parts
    for other in others:
        first += other
    return first


def mean(parts):
    """What one of these took."""
    return total(parts) / len(parts)


def words(text):
    """A parser for the words of a module with this text, whose first words are the program and the folder."""
    parser = argparse.ArgumentParser(prog=f"python3 -m {name()}", description=text, formatter_class=argparse.RawDescriptionHelpFormatter)
    parser.add_argument("archive", metavar="ARCHIVE")
    parser.add_argument("folder", metavar="FOLDER")
    return parser


def numbers(word):
    """The numbers of a word, as 10,1000."""
    return [int(part) for part in word.split(",") if part]


@contextlib.contextmanager
def started(words, folder, out):
    """A command line that is started by a shell that ends, so that it is a child of this process then: its number. It begins
    its work with the `with`, so that it does not end before the shell.

    The most memory that Linux reports for a process is no less than what its parent had at its start, and a shell has
    little."""
    process = ctypes.CDLL(None)
    held, let_go = os.pipe()
    process.prctl(PR_SET_CHILD_SUBREAPER, 1, 0, 0, 0)
    shell = ["sh", "-c", 'exec 3<&0; { read -r _ <&3; exec "$@" 3<&-; } 2>&1 & echo $! >&2', "sh", *words]
    told = subprocess.run(shell, cwd=folder, stdin=held, stdout=out, stderr=subprocess.PIPE, check=True).stderr
    process.prctl(PR_SET_CHILD_SUBREAPER, 0, 0, 0, 0)
    os.close(held)
    os.write(let_go, b"\n")
    os.close(let_go)
    yield int(told)


def line(words, folder=None, status=0):
    """Runs a command line to its end. Answers what it took, and what it printed on both outputs."""
    with tempfile.TemporaryFile() as out:
        with started(words, folder, out) as number:
            start = time.perf_counter()
            _, ended, used = os.wait4(number, 0)
            elapsed = time.perf_counter() - start
        out.seek(0)
        printed = out.read()
    if os.waitstatus_to_exitcode(ended) != status:
        stop(f"{' '.join(words[:3])} .. did not end with status {status}: {printed[-500:].decode(errors='replace')}")
    return Taken(used.ru_utime + used.ru_stime, elapsed, used.ru_maxrss), printed


@contextlib.contextmanager
def taking():
    """A list to which what this process takes in this time is added, without its memory."""
    taken, before, start = [], time.process_time(), time.perf_counter()
    yield taken
    taken.append(Taken(time.process_time() - before, time.perf_counter() - start, 0))


def digests(file):
    """What the three digests of all bodies of a database file take, by hashlib. Reading the bodies does not count."""
    held = sqlite3.connect(file)
    found, parts = held.execute("SELECT bytes FROM pieces"), []
    while pieces := found.fetchmany(1000):
        with taking() as taken:
            for (piece,) in pieces:
                for digest in ("md5", "sha1", "sha256"):
                    hashlib.new(digest, piece).digest()
        parts += taken
    held.close()
    return total(parts)


class Server:
    """A program that answers HTTP on loopback while the `with` lasts. Its words may hold {port}. The port is one that was free, if none is named."""

    def __init__(self, words, port=None):
        self.port = port or free_port()
        words = [word.replace("{port}", str(self.port)) for word in words]
        nothing = subprocess.DEVNULL
        self.process = subprocess.Popen(words, stdin=nothing, stdout=nothing, stderr=nothing)

    def __enter__(self):
        try:
            self.wait()
        except BaseException:
            self.process.kill()
            raise
        return self

    def __exit__(self, *_):
        self.process.kill()
        self.process.wait()

    def wait(self):
        """Waits for the first connection to come about."""
        while True:
            with contextlib.suppress(ConnectionRefusedError):
                socket.create_connection(("127.0.0.1", self.port)).close()
                return
            if self.process.poll() is not None:
                stop(f"{self.process.args[0]} ended with status {self.process.returncode}, and no server came up")
            time.sleep(0.001)

    def ask(self, method, path, body=b""):
        """Makes a request over a connection of its own, and answers the status and the body of the reply."""
        head = f"{method} /{path} HTTP/1.1\r\nHost: localhost\r\nContent-Length: {len(body)}\r\nConnection: close\r\n\r\n"
        with socket.create_connection(("127.0.0.1", self.port), timeout=600) as it:
            it.sendall(head.encode() + body)
            parts = []
            while part := it.recv(1 << 20):
                parts.append(part)
        head, _, answered = b"".join(parts).partition(b"\r\n\r\n")
        return int(head.split()[1]), answered

    def so_far(self):
        """What the server has taken so far, and the moment."""
        clock = ~self.process.pid << 3 | 2  # the clock that Linux keeps of another process
        with open(f"/proc/{self.process.pid}/status", encoding="ascii") as it:
            peak = next(int(line.split()[1]) for line in it if line.startswith("VmHWM:"))
        return Taken(time.clock_gettime(clock), time.perf_counter(), peak)

    @contextlib.contextmanager
    def taking(self):
        """A list to which what the server takes in this time is added. Its memory is the most since it began."""
        taken, before = [], self.so_far()
        yield taken
        taken.append(self.so_far() - before)


def figure(number):
    """A number with the digits that count."""
    digits = 0 if abs(number) >= 100 else 1 if abs(number) >= 10 else 2
    return f"{number:,.{digits}f}"


def cell(taken):
    """What something took, in words."""
    if not taken:
        return ""
    times = f"{figure(taken.processor * 1000)} / {figure(taken.elapsed * 1000)} ms"
    return f"{times}, {figure(taken.peak / 1024)} MiB" if taken.peak else times


def heading(*more):
    """The text over a table: the line that makes it again, the machine, and more sentences."""
    words = ["python3", "-m", name(), "ARCHIVE", "FOLDER", *sys.argv[3:]]
    system = f"{platform.system()} {platform.release()}, {platform.machine()}"
    machine = f"{system}, {os.cpu_count()} processors, load {os.getloadavg()[0]:.1f}."
    cells = "Each cell: processor time / time that passes, most memory."
    return f"`{shlex.join(words)}`\n\n{' '.join([machine, cells, *filter(None, more)])}\n"


def table(head, rows):
    """A table of texts, as Markdown that is plain text too."""
    rows = [head, *rows]
    widths = [max(len(row[place]) for row in rows) for place in range(len(head))]
    lines = [" | ".join(text.ljust(width) for text, width in zip(row, widths)) for row in rows]
    head, *others = [f"| {line} |" for line in lines]
    return "\n".join([head, f"|{'|'.join('-' * (width + 2) for width in widths)}|", *others])


def table_of(titles, rows):
    """A table of what things took: a title for each column, and a row for each thing, with what it took in each column."""
    return table(["What", *titles], [[what, *map(cell, taken)] for what, taken in rows])
