"""`serve --export` that is killed at random, while a script plants links, fifos, sockets, folders and junk in the tree, uploads go on, and readers ask. Nothing
outside of the tree is read, written or removed, no client waits for long, and an export of what is left makes the tree right again. The program is that of
program.py. A number on the command line is the seconds that this goes on; PLANTED_SEED seeds its chances."""
import contextlib
import os
import random
import re
import signal
import stat
import sys
import threading
import time

from tests.planted import KINDS, Outside, number_of, plant, remove
from tests.program import Serving, get, put_of, rest, status_of
from tests.test_export import Exports, contents, named, pool_path, read, sha256, upload
from tests.wants import main

SECONDS = 10

# The seconds within which servers are killed, and files that are planted go. If a line of the program takes long on this machine, they are this many
# times the time of that line. The longest that a client may wait is this many times as long: a machine may stall for some of it.
WAIT, TIMES, LONGER = 10, 4, 6

NAMES = [f"p{number}" for number in range(6)]

# The folders of the tree that stay as they are if another kind of file is in their place, and files that do so if a folder is.
FOLDERS = "dists", "pool", "pool/main", "pool/main/p", ".boqitsel"
FILES = "index.html", "uploads.html", ".boqitsel/files", ".boqitsel/new", ".boqitsel/link", ".boqitsel/lock", "dists/box", "dists/lab"
TEXTS = "Release", "index.html", "main", "main/binary-amd64", "main/binary-amd64/Packages", "main/source/Sources", "main/binary-amd64/by-hash", "own"
# What no export has, and what stays as it is.
FOREIGN = "pool/link", "pool/folder", "dists/own", ".boqitsel/own", "robots.txt"
# Lines of a manifest that no export wrote.
LIES = "left pool/link/file", "left pool/folder/below/own", "left pool/main", "left index.html", "junk"
LIES += "shown box ../../outside/folder -", "shown lab .box.new -"


def names_in(folder, start=""):
    """The names in a folder with this beginning, in their order. A link has none."""
    if os.path.islink(folder) or not os.path.isdir(folder):
        return []
    return sorted(name for name in os.listdir(folder) if name.startswith(start))


class Planter(threading.Thread):
    """Plants files in a tree until it is stopped. Each stays for at most this number of seconds."""

    def __init__(self, chances, tree, outside, longest):
        super().__init__()
        self.chances, self.tree, self.outside, self.longest = chances, tree, outside, longest
        self.root, self.count, self.is_over, self.planted = os.path.realpath(tree), 0, threading.Event(), {}

    def place(self):
        """A path of the tree, or one beside those that an export has."""
        state = self.chances.choice([".box.new", ".lab.new", f".box.{self.chances.getrandbits(128):032x}", *self.states()])
        name = self.chances.choice(NAMES)
        return self.chances.choice([
            self.chances.choice(FOLDERS), self.chances.choice(FILES), self.chances.choice(FILES), f"dists/{state}",
            f"dists/{state}/{self.chances.choice(TEXTS)}", f"dists/{state}/{self.chances.choice(TEXTS)}", f"dists/{state}/{self.chances.choice(TEXTS)}",
            f"pool/main/p/{name}", pool_path(name, f"1.{self.chances.randint(0, 9)}-1"), self.chances.choice(FOREIGN),
        ])

    def states(self):
        """The names of states. A link in place of their folder is not read."""
        with contextlib.suppress(OSError):
            return names_in(f"{self.tree}/dists", ".")
        return []

    def is_inside(self, path):
        """Whether the folder of a path is in the tree itself: a link that was planted before may lead elsewhere."""
        folder = os.path.realpath(os.path.dirname(path))
        return os.path.isdir(folder) and f"{folder}/".startswith(f"{self.root}/")

    def plant(self):
        path, kind = f"{self.tree}/{self.place()}", self.chances.choice(list(KINDS))
        if self.is_inside(path):
            plant(kind, path, self.outside)
            self.count += 1
            if not path.endswith(FOREIGN):
                self.planted[path] = time.monotonic() + self.longest * self.chances.random(), number_of(path)

    def lie(self):
        """Adds a line to the manifest that no export wrote."""
        path = f"{self.tree}/.boqitsel/files"
        if self.is_inside(path) and stat.S_ISREG(os.lstat(path).st_mode):
            with open(path, "a", encoding="ascii") as it:
                it.write(self.chances.choice(LIES) + "\n")

    def clear(self, now):
        """Removes what was planted and had its time, if it is still there: it may be in the way of every export."""
        for path in [path for path, (until, _) in self.planted.items() if until < now]:
            _, number = self.planted.pop(path)
            if self.is_inside(path) and number_of(path) == number:
                remove(path)

    def run(self):
        while not self.is_over.wait(0.1 * self.chances.random()):
            # An export removes and renames meanwhile.
            with contextlib.suppress(OSError):
                self.plant()
            with contextlib.suppress(OSError):
                if self.chances.random() < 0.1:
                    self.lie()
            with contextlib.suppress(OSError):
                self.clear(time.monotonic())

    def end(self):
        self.is_over.set()
        self.join()


class Planted(Exports):
    def setUp(self):
        super().setUp()
        self.chances = random.Random(int(os.environ.get("PLANTED_SEED", "1")))
        self.faults, self.waits, self.answers, self.kills, self.versions, self.serving = [], [0], 0, 0, 0, None
        self.is_over = threading.Event()

    def make_outside(self):
        """The folder outside. Whoever opens a fifo in it waits for good."""
        outside = Outside(f"{self.room}/outside")
        for name in ("files", "lock", "new", "link", "Release", "Packages", "index.html"):
            os.mkfifo(f"{outside.folder}/folder/{name}")
        outside.keep()
        return outside

    def asked(self, serving, request):
        """The answer to a request: nothing, if the server is killed before."""
        start, reply = time.monotonic(), b""
        try:
            client = serving.connected()
            client.settimeout(LONGER * self.wait)
            client.sendall(request)
            reply = rest(client)
        except TimeoutError:
            self.faults.append(f"a client waited for {LONGER * self.wait} s: {request[:60]!r}")
            serving.kill(signal.SIGKILL)
        except (ConnectionError, ValueError):
            # The server was killed, and perhaps its output is closed.
            pass
        self.waits.append(time.monotonic() - start)
        self.answers += bool(reply)
        return reply

    def read_on(self, paths):
        """A reader, who asks for one path after another."""
        while not self.is_over.wait(0.05):
            if self.serving and self.serving.is_running():
                reply = self.asked(self.serving, get(next(paths)))
                if reply and status_of(reply) not in (200, 404):
                    self.faults.append(f"a reader was answered {reply[:100]!r}")

    def paths(self, chances):
        while True:
            name = pool_path(chances.choice(NAMES), "1.1-1")
            yield chances.choice(["", "dists/box/Release", "dists/lab/main/binary-amd64/Packages", "verdicts", "queue", name])

    def change(self, serving):
        """An upload, a copy or a removal, and then a run. Says whether all of it was answered."""
        name, kind = self.chances.choice(NAMES), self.chances.random()
        if kind < 0.2:
            requests = [f"POST /remove/box/{name} HTTP/1.1\r\n\r\n".encode()]
        elif kind < 0.4:
            requests = [f"POST /copy/box/lab/{name} HTTP/1.1\r\n\r\n".encode()]
        else:
            self.versions += 1
            files = upload(self.room, name, f"1.{self.versions}-1", self.chances.randbytes(self.chances.randint(1, 20_000)))
            requests = [put_of(os.path.basename(file), read(file)) for file in files]
        # The export of the last is over once the list is answered.
        return all(self.asked(serving, it) for it in [*requests, b"POST /queue/run HTTP/1.1\r\n\r\n", get("queue")])

    def serve_once(self, until):
        """A server that is killed: some time after it began, or in some change."""
        with Serving(self.db, 1_000_000, "--export", self.tree, at=self.at()[1]) as serving:
            self.serving = serving
            kill = threading.Timer((0.1 + self.chances.random()) * self.wait / 3, serving.kill, [signal.SIGKILL])
            if self.chances.random() < 0.4:
                kill.start()
            changes = self.chances.randint(1, 8)
            while changes and time.monotonic() < until and self.change(serving):
                changes -= 1
            with contextlib.suppress(ConnectionError):
                client = serving.connected()
                client.sendall(b"POST /queue/run HTTP/1.1\r\n\r\n")
                time.sleep(0.3 * self.chances.random())
                client.close()
            kill.cancel()
            if serving.is_running():
                serving.kill(signal.SIGKILL)
            status, _, told = serving.ended()
        self.kills += 1
        self.assertEqual(status, -signal.SIGKILL)
        for line in told.splitlines():
            self.assertTrue(line.startswith(f"archive: cannot write {self.tree}/"), line)

    def clear_the_way(self):
        """Removes what an export refuses: other files in place of folders, and folders in place of files."""
        states = [f"dists/{name}" for name in names_in(f"{self.tree}/dists", ".")]
        for path in [*FOLDERS, *(f"pool/main/p/{name}" for name in NAMES), *states]:
            whole = f"{self.tree}/{path}"
            if os.path.lexists(whole) and (os.path.islink(whole) or not os.path.isdir(whole)):
                remove(whole)
        pages = [f"dists/{name}/index.html" for name in names_in(f"{self.tree}/dists")]
        pool = [path for path in contents(self.tree) if path.startswith("pool/") and path.endswith(".deb")]
        for path in [*FILES, *pages, *pool]:
            whole = f"{self.tree}/{path}"
            is_own = re.fullmatch(r"dists/(box|lab)", path) is None or not os.path.islink(whole)
            if is_own and os.path.isdir(whole) or path == ".boqitsel/lock" and os.path.lexists(whole) and not stat.S_ISREG(os.lstat(whole).st_mode):
                remove(whole)

    def check_right(self, outside):
        """The next export makes the tree that a new one is, beside what is foreign."""
        self.clear_the_way()
        self.export()
        self.assertEqual(outside.faults(), [])
        for suite in ("box", "lab"):
            for path, digest in named(self.file(f"dists/{suite}/main/binary-amd64/Packages")).items():
                self.assertEqual(sha256(self.file(path)), digest)
        tree, self.tree = self.tree, f"{self.room}/fresh"
        self.export()
        there = contents(tree)
        fresh = contents(self.tree, but=(".boqitsel",))
        self.assertEqual({path: there.get(path) for path in fresh}, fresh)

    def test_what_is_planted_beside_exports_that_are_killed(self):
        self.archive()
        start = time.monotonic()
        self.upload("p0", "1.0-1")
        self.export()
        self.wait = max(WAIT, TIMES * (time.monotonic() - start) / 3)
        outside = self.make_outside()
        planter = Planter(random.Random(self.chances.random()), self.tree, outside.folder, self.wait / 4)
        readers = [threading.Thread(target=self.read_on, args=[self.paths(random.Random(number))]) for number in range(2)]
        for it in (planter, *readers):
            it.start()
        until = time.monotonic() + SECONDS
        try:
            while time.monotonic() < until and not self.faults:
                self.serve_once(until)
                self.faults += outside.faults()
        finally:
            self.is_over.set()
            planter.end()
            for it in readers:
                it.join()
        print(f"{planter.count} planted, {self.kills} kills, {self.answers} answers; the longest wait was {max(self.waits):.1f} s")
        self.assertEqual(self.faults[:3], [])
        self.assertLess(max(self.waits), LONGER * self.wait)
        self.assertGreater(self.answers, 0)
        self.check_right(outside)


if __name__ == "__main__":
    if len(sys.argv) > 1 and sys.argv[1].isdigit():
        SECONDS = int(sys.argv.pop(1))
    main()
