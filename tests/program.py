"""The built program, for tests: lines of it over a database file, an archive that it serves on loopback, and clients of that which are quick,
silent, slow or rude. It is the program that `rt ci` or `make build` built, or the one that ARCHIVE names; if there is none the tests say that
they were skipped.

Each waits for a limited time, and each process is ended whatever happens."""
import contextlib
import hashlib
import os
import signal
import socket
import struct
import subprocess
import tempfile
import time
import unittest

from tests.ports import free_address, give_back
from tests.wants import needs_file, no_file_system, path_of

ROOT = os.path.dirname(os.path.dirname(os.path.abspath(__file__)))
PROGRAM = os.environ.get("ARCHIVE", f"{ROOT}/crates/archive/out/archive")
DATA = f"{ROOT}/crates/archive/data"
NAMES = ["hello_1.0-1_amd64.changes", "hello_1.0-1_amd64.deb", "hello_1.0-1_amd64.control"]

# How long a test waits for what should come at once, and for what may take its time, in seconds: a slow machine may stall for some of them.
SOON, LONG = 60, 150

# Whoever is started by a shell in the background ignores SIGINT, and so do its children, unless this is said.
signal.signal(signal.SIGINT, signal.default_int_handler)

# 2016-07-02 05:20:50 UTC.
MOMENT = "1467436850"

PACKAGES = b"""Package: hello
Version: 1.0-1
Architecture: amd64
Maintainer: Ann <ann@example.org>
Description: greets
Filename: pool/main/h/hello/hello_1.0-1_amd64.deb
Size: 3
MD5sum: 900150983cd24fb0d6963f7d28e17f72
SHA1: a9993e364706816aba3e25717850c26c9cd0d89d
SHA256: ba7816bf8f01cfea414140de5dae2223b00361a396177a9cb410ff61f20015ad

"""


# ---- over a database file


@needs_file(PROGRAM)
class Lines(unittest.TestCase):
    """Lines of the program over a database file."""

    def line(self, status, word, db, *words):
        """Runs a line of the program, and answers what it prints, on both outputs."""
        ran = subprocess.run([PROGRAM, word, "--db", db, *words], capture_output=True, text=True, check=False, timeout=LONG)
        self.assertEqual(ran.returncode, status, ran.stderr)
        return ran.stdout + ran.stderr

    def made(self):
        """A new database with an archive."""
        room = tempfile.TemporaryDirectory()
        self.addCleanup(room.cleanup)
        db, conf = f"{room.name}/box.db", f"{room.name}/box.conf"
        with open(conf, "w", encoding="ascii") as it:
            it.write("Codename: box\nArchitectures: amd64 source\nComponents: main\n")
        self.line(0, "init", db, "--at", "0", conf)
        return db

    def accepted(self):
        """A new database in which an upload is accepted."""
        db = self.made()
        self.line(0, "put", db, "--at", "0", *(f"{DATA}/{name}" for name in NAMES))
        self.line(0, "run", db, "--at", "0")
        return db


@contextlib.contextmanager
def mounted(size):
    """A folder on a file system of this number of bytes. The test is skipped if there can be none."""
    with tempfile.TemporaryDirectory() as folder:
        words = ["mount", "-t", "tmpfs", "-o", f"size={size}", "none", folder]
        if not path_of("mount") or subprocess.run(words, capture_output=True, check=False).returncode:
            raise no_file_system()
        try:
            yield folder
        finally:
            subprocess.run(["umount", "-l", folder], check=False)


# ---- served


class Serving:
    """`serve` over a database file, with this number of connections at a moment, and more words. It may run under another program,
    and its standard error may go elsewhere. The program may be another, too, and the address one that was free."""

    def __init__(self, db, count, *words, at="0", under=(), stderr=None, program=PROGRAM, address=None):
        self.address = address or free_address()
        self.printed, self.told = tempfile.TemporaryFile(), tempfile.TemporaryFile()
        line = [*under, program, "serve", "--db", db, "--at", at, *words, "%s:%d" % self.address, str(count)]
        streams = {"stdin": subprocess.DEVNULL, "stdout": self.printed, "stderr": stderr or self.told}
        self.process = subprocess.Popen(line, start_new_session=True, **streams)

    def __enter__(self):
        return self

    def __exit__(self, *_):
        with contextlib.suppress(ProcessLookupError):
            os.killpg(self.process.pid, signal.SIGKILL)
        self.process.wait()
        give_back(self.address[1])
        self.printed.close()
        self.told.close()

    def is_running(self):
        return self.process.poll() is None

    def connected(self):
        """A client with a connection. If nothing listens yet, it is tried again for a while."""
        end = time.monotonic() + SOON
        while True:
            it = socket.socket()
            it.settimeout(LONG)
            with contextlib.suppress(ConnectionRefusedError, ConnectionResetError):
                it.connect(self.address)
                if it.getsockname() != it.getpeername():  # a client may be connected to itself if nothing listens
                    return it
            it.close()
            if time.monotonic() > end or not self.is_running():
                raise ConnectionRefusedError(f"nothing listens; the program said {self.said()}")
            time.sleep(0.005)

    def sent(self, request):
        """A client that has sent a request and is done."""
        it = self.connected()
        it.sendall(request)
        it.shutdown(socket.SHUT_WR)
        return it

    def answer(self, request):
        """The answer to a request."""
        return rest(self.sent(request))

    def said(self):
        """What was printed so far, on both outputs. The place in each at which the program goes on is left as it is."""
        files = [it.fileno() for it in (self.printed, self.told)]
        return tuple(os.pread(it, os.fstat(it).st_size, 0).decode(errors="backslashreplace") for it in files)

    def logged(self, count):
        """Waits until `count` lines are logged; the last is written after its reply. Answers everything that is then there, at the
        latest after the longest wait."""
        end = time.monotonic() + LONG
        while (told := self.said()[1]).count("\n") < count and self.is_running() and time.monotonic() < end:
            time.sleep(0.01)
        return told

    def ended(self, limit=SOON):
        """Waits for the end. Answers the exit status, and what was printed on both outputs."""
        self.process.wait(timeout=limit)
        return self.process.returncode, *self.said()

    def kill(self, number):
        self.process.send_signal(number)


# ---- clients


def rest(client):
    """All that a client is sent until its connection ends, be it by a reset."""
    parts = []
    with client, contextlib.suppress(ConnectionResetError, BrokenPipeError):
        while part := client.recv(1 << 16):
            parts.append(part)
    return b"".join(parts)


def unread(client):
    """The number of bytes that a client on loopback sent and the server has not read, as the system says for both
    ends."""
    own, other = ("0100007F:%04X" % port for _, port in (client.getsockname(), client.getpeername()))
    with open("/proc/net/tcp", encoding="ascii") as it:
        queues = {tuple(words[1:3]): words[4].split(":") for words in map(str.split, it)}
    (on_the_way, _), (_, arrived) = (queues.get(ends, ("0", "0")) for ends in ((own, other), (other, own)))
    return int(on_the_way, 16) + int(arrived, 16)


def wait_until_read(client):
    """Waits until the server has read what a client sent, but not for long."""
    end = time.monotonic() + 10
    while unread(client) and time.monotonic() < end:
        time.sleep(0.01)


def reset(client):
    """Ends a connection by a reset."""
    client.setsockopt(socket.SOL_SOCKET, socket.SO_LINGER, struct.pack("ii", 1, 0))
    client.close()


def status_of(reply):
    """The status of a reply, or nothing if there is no reply."""
    return int(reply.split()[1]) if reply else None


def seconds_since(start):
    return time.monotonic() - start


def fewest_seconds(measured, most):
    """The fewest seconds that something takes of three times. Once they are below the most, it is not measured again. A machine that stalls may take
    more at times; what waits for too long does so each time."""
    fewest = measured()
    for _ in range(2):
        if fewest < most:
            break
        fewest = min(fewest, measured())
    return fewest


# ---- requests and replies


def put_of(name, body):
    """A request that delivers a body under a name."""
    return f"PUT /incoming/{name} HTTP/1.1\r\nContent-Length: {len(body)}\r\n\r\n".encode() + body


def put(name):
    """A request that delivers a file of the three."""
    with open(f"{DATA}/{name}", "rb") as it:
        return put_of(name, it.read())


def get(path):
    """A request for what stands at a path."""
    return f"GET /{path} HTTP/1.1\r\nHost: a\r\n\r\n".encode()


def release():
    """The Release of the archive that shows hello."""
    lines = ["Codename: box", "Date: Sat, 02 Jul 2016 05:20:50 UTC", "Architectures: amd64", "Components: main"]
    for title, name in (("MD5Sum", "md5"), ("SHA1", "sha1"), ("SHA256", "sha256")):
        lines.append(f"{title}:")
        for path, text in (("main/binary-amd64/Packages", PACKAGES), ("main/source/Sources", b"")):
            lines.append(f" {hashlib.new(name, text).hexdigest()} {len(text)} {path}")
    return "".join(f"{line}\n" for line in lines).encode()


def replied(status, body, kind="text/plain; charset=utf-8"):
    """The bytes of a reply."""
    head = [f"HTTP/1.1 {status}", f"Content-Type: {kind}", f"Content-Length: {len(body)}", "Connection: close", "", ""]
    return "\r\n".join(head).encode() + body
