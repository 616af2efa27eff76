"""The real apt over an exported tree, while exports go on. A static server records the state of a suite from which each request was answered.
The program is that of program.py. EXPORT_APT_SECONDS says how long each test lasts, instead of 15 seconds, and EXPORT_APT_PAUSE how many
seconds pass between two exports, instead of 1."""
import http.server
import os
import pathlib
import random
import re
import threading
import time

from tests import snippets
from tests.test_export import Exports
from tests.wants import main, needs

SECONDS = float(os.environ.get("EXPORT_APT_SECONDS", "15"))
PAUSE = float(os.environ.get("EXPORT_APT_PAUSE", "1"))
MISMATCH = re.compile(r"Hash Sum mismatch|File has unexpected size")


class Tree(http.server.SimpleHTTPRequestHandler):
    """Serves the files of a tree. What was asked for of a suite goes to a list, with the folder of the state that the link led to then."""

    protocol_version = "HTTP/1.1"
    asked = []

    def translate_path(self, path):
        """The file of a path. The link of a suite is read once, so that the whole answer is of one state."""
        parts = path.split("?")[0].strip("/").split("/")
        if parts[:2] == ["dists", "box"] and len(parts) > 2:
            state = os.readlink(f"{self.directory}/dists/box")
            self.asked.append((parts[-1], state))
            parts[1] = state
        return "/".join([self.directory, *parts])

    def log_message(self, *_):
        """Says nothing."""


class Apt(Exports):
    def setUp(self):
        super().setUp()
        self.random, self.is_over, self.states, self.faults = random.Random(1), False, [], []
        self.lock, self.versions = threading.Lock(), 0
        self.place = snippets.Room()
        self.addCleanup(self.place.close)

    def serve(self):
        """Starts a server of the tree, and answers its port."""
        Tree.asked = []
        handler = lambda *words: Tree(*words, directory=self.tree)
        server = http.server.ThreadingHTTPServer(("127.0.0.1", 0), handler)
        self.addCleanup(server.server_close)
        self.addCleanup(server.shutdown)
        threading.Thread(target=server.serve_forever, daemon=True).start()
        return server.server_address[1]

    def change(self, flags):
        """An upload more, and an export of it."""
        self.versions += 1
        self.upload(f"p{self.random.randint(0, 9)}", f"1.{self.versions}-1", os.urandom(self.random.randint(1, 20_000)))
        with self.lock:
            for line in self.export(*flags):
                if line.startswith("shown box "):
                    self.states.append(line.split()[2])

    def change_on(self, flags):
        try:
            while not self.is_over:
                self.change(flags)
                time.sleep(PAUSE * (0.5 + self.random.random()))
        except AssertionError as fault:
            self.faults.append(str(fault))

    def update(self):
        """Whether apt-get takes what is shown, what it says, and what it asked for."""
        first = len(Tree.asked)
        status, printed, told = self.place.run("apt-get -o APT::Update::Error-Mode=any update")
        return status == 0, printed + told, Tree.asked[first:]

    def lists(self):
        """The lists that apt has, byte for byte."""
        folder = pathlib.Path(self.place.variables["APT_CONFIG"]).parent / "var/lib/apt/lists"
        return {path.name: path.read_bytes() for path in folder.glob("*") if path.is_file() and path.name != "lock"}

    def check_failure(self, said, asked, before):
        """A failure is one of sizes or digests, since Release was of one state and an index of another; the old lists stay; and with no
        export between, the next try is right."""
        self.assertRegex(said, MISMATCH)
        releases = {state for name, state in asked if name in ("InRelease", "Release")}
        indices = {state for name, state in asked if name in ("Packages", "Sources")}
        self.assertGreater(len(releases | indices), 1, said)
        self.assertEqual({name: body for name, body in self.lists().items() if "Packages" in name}, {name: body for name, body in before.items() if "Packages" in name})
        with self.lock:
            is_right, said, _ = self.update()
            self.assertTrue(is_right, said)

    def check_downloads(self):
        """A package that the lists have is there until the second export that shows something."""
        body = b"".join(body for name, body in self.lists().items() if "Packages" in name).decode()
        name = self.random.choice(re.findall(r"^Package: (\S+)$", body, re.M))
        with self.lock:
            taken = next((state for asked, state in reversed(Tree.asked) if asked in ("InRelease", "Release")), None)
            behind = len(self.states) - 1 - self.states.index(taken)
            status, printed, told = self.place.run(f"apt-get download {name}")
        if behind <= 1:
            self.assertEqual(status, 0, printed + told)
        return behind <= 1

    def loop(self, option, flags):
        self.archive()
        self.upload("p0", "1.0-1")
        self.change(flags)
        self.place.apt(f"deb [{option}] http://127.0.0.1:{self.serve()} box main\n")
        exports = threading.Thread(target=self.change_on, args=(flags,))
        exports.start()
        updates, failed, downloads, until = 0, 0, 0, time.monotonic() + SECONDS
        try:
            while time.monotonic() < until:
                before = self.lists()
                is_right, said, asked = self.update()
                updates += 1
                if not is_right:
                    failed += 1
                    self.check_failure(said, asked, before)
                downloads += self.check_downloads()
        finally:
            self.is_over = True
            exports.join()
        self.assertEqual(self.faults, [])
        self.assertGreater(updates, 0)
        print(f"{option}: {updates} updates beside {len(self.states)} exports, {failed} failed; {downloads} downloads")
        return failed

    @needs("apt-get")
    def test_each_failure_is_a_switch_between_two_requests(self):
        self.loop("trusted=yes", [])

    @needs("apt-get")
    def test_none_fails_with_names_by_digest(self):
        self.assertEqual(self.loop("trusted=yes by-hash=force", ["--by-hash"]), 0)


if __name__ == "__main__":
    main()
