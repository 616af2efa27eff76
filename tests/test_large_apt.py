"""Tests of a large package with the real apt: it goes in by `upload`, apt installs it from `serve` and from an export, and it is the one that was
made, byte for byte. How long each step takes is printed. The program is that of program.py. If a tool is not there, the test says that it was
skipped.

    python3 -m tests.test_large_apt [MIB]

MIB is the size of the package, 200 if it is not said."""
import os
import pathlib
import shutil
import sys
import tempfile
import time

from tests import snippets
from tests.ports import free_port
from tests.program import LONG, PROGRAM
from tests.test_large import MEBIBYTE, PIECE, changes_file, file_at, piece_of, pool_path, print_of
from tests.wants import main, missing, needs, needs_file, needs_root
from uploads import uploads

SIZE = 200 * MEBIBYTE
NAME = "large_1.0-1_amd64"

# What installs a package into the folder `system`, and not into this machine.
INSTALL = """apt-get update
apt-get -y -o Dir::State::status=$PWD/system/var/lib/dpkg/status -o Dpkg::Options::=--root=$PWD/system -o Dpkg::Options::=--log=$PWD/system/log install large
"""


def mebibytes():
    """What MaxFileSize says: the least that lets the package in."""
    return max(4, SIZE // MEBIBYTE)


def limit():
    """How many seconds something may take that reads or writes the whole package some times."""
    return LONG + 4 * SIZE // MEBIBYTE


@needs_file(PROGRAM)
@needs("apt-get", "dpkg-deb")
@needs_root
class Installed(snippets.Case):
    def setUp(self):
        super().setUp()
        if shutil.disk_usage(tempfile.gettempdir()).free < 12 * SIZE + (1 << 30):
            raise missing(f"room for {12 * SIZE // MEBIBYTE + 1024} MiB in {tempfile.gettempdir()}")
        self.room.write("work/box.conf", f"MaxFileSize: {mebibytes()}\n{uploads.CONFIGURATION}")
        self.shell('archive init --db box.db --at "$(date +%s)" box.conf')

    def timed(self, what, text):
        """Runs a text that ends well, and prints how long it takes. Answers what it prints."""
        start = time.monotonic()
        status, printed, told = self.room.run(text, within=limit())
        self.assertEqual(status, 0, printed + told)
        print(f"{what}, {SIZE // MEBIBYTE} MiB: {time.monotonic() - start:.1f} seconds.")
        return printed

    def package(self):
        """Makes a package with one file, which does not compress, and answers the path of a .changes that lists it."""
        path = pathlib.Path(self.room.folder, "package/usr/share/large/data")
        path.parent.mkdir(parents=True)
        with path.open("wb") as out:
            for number in range(SIZE // PIECE - 1):  # the rest is for what is around it
                out.write(piece_of("large", number))
        self.room.write("package/DEBIAN/control", uploads.control_of(uploads.Package("large")).decode())
        self.shell("dpkg-deb -Znone --root-owner-group --build ../package .. > built", self.room.work)
        self.deb, self.data = file_at(f"{self.room.folder}/{NAME}.deb"), print_of(path)
        self.assertTrue(SIZE - PIECE < self.deb.size <= SIZE, self.deb.size)
        return changes_file(self.room.folder, "large", [self.deb]).path

    def upload(self, port):
        """Has the archive that is served at a port accept the package."""
        words = f"--most {mebibytes()} --run --within {limit()}"
        printed = self.timed("An upload", f"upload http://127.0.0.1:{port} {self.package()} {words}")
        self.assertEqual(printed, "".join(f"new {NAME}.{it}\n" for it in ("deb", "control", "changes")) + f"accepted {NAME}.changes\n")

    def check_installs(self, what, address):
        """Checks that an apt with this archive installs the package, and that its file is as it was made, and so is what apt downloads."""
        self.room.apt(f"deb [trusted=yes] {address} box main\n")
        system = f"{self.room.work}/system"
        for name in ("info", "updates"):
            os.makedirs(f"{system}/var/lib/dpkg/{name}")
        pathlib.Path(system, "var/lib/dpkg/status").touch()
        printed = self.timed(f"apt-get install from {what}", INSTALL)
        self.assertIn("Setting up large (1.0-1)", printed)
        self.assertEqual(print_of(f"{system}/usr/share/large/data"), self.data)
        self.timed(f"apt-get download from {what}", "apt-get download large")
        self.assertEqual(print_of(f"{self.room.work}/{NAME}.deb"), (self.deb.size, self.deb.digests["sha256"]))
        self.shell(f"rm -r system {NAME}.deb")

    def test_it_is_installed(self):
        port = free_port()
        words = ["archive", "serve", "--db", "box.db", "--at", str(int(time.time())), f"127.0.0.1:{port}", "1000000"]
        serving = self.room.start(words, port=port)
        self.upload(port)
        self.check_installs("serve", f"http://127.0.0.1:{port}")
        self.room.end(serving)
        self.timed("An export", "archive export --db box.db www")
        self.assertEqual(print_of(f"{self.room.work}/www/{pool_path('large')}"), (self.deb.size, self.deb.digests["sha256"]))
        self.check_installs("an export", f"file:{self.room.work}/www")


if __name__ == "__main__":
    if len(sys.argv) > 1 and sys.argv[1].isdigit():
        SIZE = int(sys.argv.pop(1)) * MEBIBYTE
    main()
