"""Tests of with_sidecars, on uploads that they make with dpkg-deb and dpkg-buildpackage.

If the program of program.py is there, it takes the uploads.
"""
import collections
import contextlib
import hashlib
import io
import lzma
import os
import pathlib
import random
import re
import resource
import shutil
import stat
import subprocess
import sys
import tempfile
import time
import tracemalloc
import unittest
import unittest.mock

from tests.program import PROGRAM, ROOT
from tests.tools import tool
from tests.wants import main, missing, needs
from uploads import uploads

TOOL = f"{ROOT}/bin/with_sidecars"
# How long a test waits for what should come, in seconds, and how much memory with_sidecars gets.
LONG, MEMORY = 300, 1 << 28
# What is said below a file that an archive may take all the same.
HINT = ": give --most, if MaxFileSize of the archive is larger"
UMASK = os.umask(0)
os.umask(UMASK)

CONTROL = """Package: {package}
Version: {version}
Architecture: all
Maintainer: Ann <ann@example.org>
Description: greets
 It says hello, and then
 .
 nothing more.
"""

HEAD = """Format: 1.8
Date: Sat, 02 Jul 2016 05:00:00 +0000
Source: hello
Binary: {package}
Architecture: all amd64
Version: {version}
Distribution: box
Urgency: low
Maintainer: Ann <ann@example.org>
Description:
 {package} - greets
Changes:
 hello ({version}) box; urgency=low
 .
   * First.
"""

# The fields that a .changes has to have.
REQUIRED = "Format Date Source Version Architecture Distribution Maintainer Changes Checksums-Sha1 Checksums-Sha256 Files".split()

ARMOURED = """-----BEGIN PGP SIGNED MESSAGE-----
Hash: SHA512

{text}
-----BEGIN PGP SIGNATURE-----

iHUEARYKAB0WIQ
-----END PGP SIGNATURE-----
"""

RULES = """#!/usr/bin/make -f
build build-arch build-indep clean:
binary binary-arch binary-indep:
\tmkdir -p debian/tmp/DEBIAN
\techo hello-world > debian/tmp/greeting
\tdpkg-gencontrol -phello
\tdpkg-deb --root-owner-group --build debian/tmp ..
"""

SOURCE_CONTROL = """Source: hello
Section: utils
Priority: optional
Maintainer: Ann <ann@example.org>
Standards-Version: 4.6.2

Package: hello
Architecture: all
Description: greets
"""

CHANGELOG = """hello (1:1.0-1) box; urgency=low

  * First.

 -- Ann <ann@example.org>  Sat, 02 Jul 2016 05:00:00 +0000
"""


def list_of(field, digest, bodies):
    """A list of a .changes."""
    place = "utils optional " if field == "Files" else ""
    lines = [f" {hashlib.new(digest, body).hexdigest()} {len(body)} {place}{name}\n" for name, body in bodies.items()]
    return f"{field}:\n{''.join(lines)}"


def tar_of(members):
    """A tar of members, each its name, its text and its kind."""
    parts = []
    for name, text, kind in members:
        body = text.encode(errors="surrogateescape")
        head = name.encode().ljust(100, b"\0") + b"0000644\x000000000\x000000000\0%011o\x0012735645120\0" % len(body)
        head += b" " * 8 + kind + b"/etc/hostname".ljust(100, b"\0") + b"ustar\x0000"
        head = head.ljust(512, b"\0").replace(b" " * 8 + kind, b"%06o\0 " % sum(head.ljust(512, b"\0")) + kind)
        parts += [head, body, bytes(-len(body) % 512)]
    return b"".join(parts) + bytes(1024)


def deb_with(tar):
    """A package file whose control files are in this tar."""
    return uploads.ar_of({"debian-binary": b"2.0\n", "control.tar.xz": lzma.compress(tar, preset=0), "data.tar.gz": uploads.tar_of({})})


def fields_of(text):
    """The lines of each field, by its name."""
    fields = {}
    for line in text.splitlines():
        if not line.startswith(" "):
            name = line.partition(":")[0]
            fields[name] = []
        fields[name].append(line)
    return fields


def names_in(fields, field):
    return [line.split()[-1] for line in fields[field][1:]]


def run(*words, **more):
    return subprocess.run(words, capture_output=True, text=True, check=False, timeout=LONG, **more)


def with_sidecars(*words, **more):
    """Runs the command, which has 256 MiB."""
    return run(sys.executable, TOOL, *words, preexec_fn=lambda: resource.setrlimit(resource.RLIMIT_AS, (MEMORY, MEMORY)), **more)


def told(*lines):
    """What with_sidecars says on standard error."""
    return "".join(f"with_sidecars: {line}\n" for line in lines)


@needs("dpkg-deb")
class Uploads(unittest.TestCase):
    def setUp(self):
        room = tempfile.TemporaryDirectory()
        self.addCleanup(room.cleanup)
        self.room = pathlib.Path(room.name)
        self.built = self.room / "built"
        self.ready = self.room / "ready"
        self.built.mkdir()

    def build(self, package, version):
        """Builds a package file, and answers its name."""
        tree = self.room / package
        (tree / "DEBIAN").mkdir(parents=True, exist_ok=True)
        (tree / "DEBIAN/control").write_text(CONTROL.format(package=package, version=version))
        name = f"{package}_{version.partition(':')[2] or version}_all.deb"
        run("dpkg-deb", "--root-owner-group", "--build", tree, self.built / name).check_returncode()
        return name

    def changes(self, package="hello", version="1.0-1", more=(), armoured=False, name="hello_1.0-1_amd64.changes"):
        """Builds a package and its .changes, which lists more files by name."""
        deb = self.build(package, version)
        bodies = {name: (self.built / name).read_bytes() for name in [deb, *more]}
        text = HEAD.format(package=package, version=version)
        for field, digest in (("Checksums-Sha1", "sha1"), ("Checksums-Sha256", "sha256"), ("Files", "md5")):
            text += list_of(field, digest, bodies)
        changes = self.built / name
        changes.write_text(ARMOURED.format(text=text) if armoured else text)
        return changes

    def check_lists(self, paths):
        """Checks the lists of a written .changes."""
        fields = fields_of(pathlib.Path(paths[-1]).read_text())
        bodies = {pathlib.Path(path).name: pathlib.Path(path).read_bytes() for path in paths[:-1]}
        for field, digest, place in (("Checksums-Sha1", "sha1", 0), ("Checksums-Sha256", "sha256", 0), ("Files", "md5", 2)):
            self.assertEqual(names_in(fields, field), list(bodies))
            for line, body in zip(fields[field][1:], bodies.values()):
                words = line[1:].split(" ")
                self.assertEqual(words[:2], [hashlib.new(digest, body).hexdigest(), str(len(body))])
                self.assertEqual(len(words), 3 + place)

    def check_accepted(self, paths, packages):
        """Checks what the archive shows of an upload, if its program is built."""
        if not os.path.exists(PROGRAM):
            raise missing(PROGRAM)
        tried = run(PROGRAM, "try", *paths)
        self.assertEqual((tried.stderr, tried.returncode), ("", 0))
        self.assertEqual([line for line in tried.stdout.splitlines() if line.startswith("Package:")], packages)

    def test_a_package_gets_its_sidecar(self):
        changes = self.changes()
        done = with_sidecars(changes, self.ready)
        self.assertEqual((done.stderr, done.returncode), ("", 0))
        names = ["hello_1.0-1_all.deb", "hello_1.0-1_all.control", "hello_1.0-1_amd64.changes"]
        paths = done.stdout.splitlines()
        self.assertEqual(paths, [str(self.ready / name) for name in names])
        self.assertEqual((self.ready / names[1]).read_text(), CONTROL.format(package="hello", version="1.0-1"))
        old, new = fields_of(changes.read_text()), fields_of((self.ready / names[2]).read_text())
        self.assertEqual(list(old), list(new))
        for name in ("Changes", "Description", "Version", "Date"):
            self.assertEqual(old[name], new[name])
        self.check_lists(paths)
        self.check_accepted(paths, ["Package: hello"])

    def test_a_name_has_no_epoch(self):
        done = with_sidecars(self.changes(version="1:1.0-1"), self.ready)
        self.assertEqual((done.stderr, done.returncode), ("", 0))
        self.assertIn("Version: 1:1.0-1\n", (self.ready / "hello_1.0-1_all.control").read_text())
        self.check_lists(done.stdout.splitlines())
        self.check_accepted(done.stdout.splitlines(), ["Package: hello"])

    def test_a_signature_and_a_buildinfo_are_left_out(self):
        (self.built / "hello_1.0-1_amd64.buildinfo").write_text("Format: 1.0\n")
        done = with_sidecars(self.changes(more=["hello_1.0-1_amd64.buildinfo"], armoured=True), self.ready)
        signature = "took the signature off hello_1.0-1_amd64.changes: the archive reads none"
        buildinfo = "left out hello_1.0-1_amd64.buildinfo: the archive takes no .buildinfo"
        self.assertEqual((done.stderr, done.returncode), (told(signature, buildinfo), 0))
        self.assertFalse((self.ready / "hello_1.0-1_amd64.buildinfo").exists())
        text = (self.ready / "hello_1.0-1_amd64.changes").read_text()
        self.assertTrue(text.startswith("Format: 1.8\n"))
        self.assertNotIn("-----", text)
        self.check_lists(done.stdout.splitlines())
        self.check_accepted(done.stdout.splitlines(), ["Package: hello"])

    def test_refusals(self):
        changes = self.changes()
        good = changes.read_text()
        deb = self.built / "hello_1.0-1_all.deb"
        rows = [
            (good.replace("Files:", "Fields:"), "no field Files"),
            (good.replace("Date: ", "Day: ").replace("Maintainer: Ann <ann@example.org>", "Maintainer: "), "no fields Date, Maintainer"),
            ("Source: hello\n", f"no fields {', '.join(it for it in REQUIRED if it != 'Source')}"),
            (good.replace(f" {deb.stat().st_size} ", " 7 "), f"{deb.name} is not the file that Checksums-Sha1 lists"),
            (ARMOURED.format(text=good).partition("-----BEGIN PGP SIGNATURE")[0], "a signature without an end"),
            (good + "\nFormat: 1.8\n", "not a field of one paragraph: "),
        ]
        for text, wanted in rows:
            changes.write_text(text)
            done = with_sidecars(changes, self.ready)
            self.assertEqual((done.stdout, done.stderr, done.returncode), ("", told(f"{changes.name}: {wanted}"), 1))
        changes.write_text(good)
        self.assertEqual(with_sidecars(changes, self.built).returncode, 1)
        self.assertEqual(with_sidecars(self.built / "none.changes", self.ready).returncode, 1)
        for words in ((), (changes,), ("--section", changes, self.ready), ("--section", "-", changes, self.ready), ("--other", changes, self.ready)):
            self.assertEqual(with_sidecars(*words).returncode, 2, words)
        self.assertFalse(self.ready.exists())

    def test_several_and_one_of_them_fails(self):
        """Those that can be made are made, and the others are said."""
        first = self.changes(name="first.changes")
        second = self.changes("world", name="second.changes")
        third = self.changes("third", name="third.changes")
        third.write_text(third.read_text().replace("Files:", "Fields:"))
        done = with_sidecars(third, first, self.built / "none.changes", second, self.ready)
        self.assertEqual(done.returncode, 1)
        self.assertEqual(done.stderr.splitlines()[0], "with_sidecars: third.changes: no field Files")
        self.assertRegex(done.stderr, "\nwith_sidecars: none.changes: .*No such file.*\n$")
        paths = done.stdout.splitlines()
        names = ["hello_1.0-1_all.deb", "hello_1.0-1_all.control", "first.changes", "world_1.0-1_all.deb", "world_1.0-1_all.control", "second.changes"]
        self.assertEqual(paths, [str(self.ready / name) for name in names])
        self.check_lists(paths[:3])
        self.check_lists(paths[3:])

    def test_several_with_one_name_and_other_contents(self):
        first, other = self.changes(), self.room / "other"
        shutil.copytree(self.built, other)
        other_changes = other / first.name
        done = with_sidecars(first, other_changes, self.ready)
        self.assertEqual((done.stderr, done.returncode), ("", 0))
        text = (self.ready / first.name).read_text()
        other_changes.write_text(first.read_text().replace("First.", "Second."))
        done = with_sidecars(first, other_changes, self.ready)
        wanted = f"{first.name}: another .changes has a {first.name} with other contents: give it another folder"
        self.assertEqual((done.stderr, done.returncode), (told(wanted), 1))
        self.assertEqual((self.ready / first.name).read_text(), text)

    def test_a_section_for_files_without_one(self):
        changes = self.changes()
        text = changes.read_text()
        for place, words, wanted in (
            ("- optional", (), "- optional"),
            ("- optional", ("--section", "contrib/utils"), "contrib/utils optional"),
            ("utils optional", ("--section=contrib/utils",), "utils optional"),
        ):
            changes.write_text(text.replace("utils optional", place))
            done = with_sidecars(*words, changes, self.ready)
            self.assertEqual((done.stderr, done.returncode), ("", 0))
            self.check_lists(done.stdout.splitlines())
            lines = fields_of((self.ready / changes.name).read_text())["Files"][1:]
            self.assertEqual([" ".join(line.split()[2:4]) for line in lines], [wanted] * 2)

    def listing(self, name, body=b"", file="odd.changes"):
        """A .changes that lists the package hello, and another file by its name with these contents. The file itself is not made."""
        changes = self.changes(name=file)
        lists = (("Checksums-Sha1", "sha1"), ("Checksums-Sha256", "sha256"), ("Files", "md5"))
        text = changes.read_text()
        for field, digest in lists:
            text = text.replace(f"{field}:\n", list_of(field, digest, {name: body}))
        changes.write_text(text)
        return changes

    def check_refused(self, changes, wanted):
        """Checks that an upload is refused with this line, and that nothing of it is written, and the one after it all the same."""
        good = self.changes(name="good.changes")
        done = with_sidecars(changes, good, self.ready)
        self.assertEqual((done.stderr, done.returncode), (told(f"{changes.name}: {wanted}"), 1))
        self.assertEqual(done.stdout.splitlines()[-1], str(self.ready / good.name))
        self.assertEqual(sorted(it.name for it in self.ready.iterdir()), ["good.changes", "hello_1.0-1_all.control", "hello_1.0-1_all.deb"])

    def test_a_file_elsewhere_is_not_opened(self):
        """Whoever opened one of these would wait for good."""
        os.mkfifo(self.room / "secret.dsc")
        os.mkfifo(self.built / "-x.deb")
        for name in ("../secret.dsc", str(self.room / "secret.dsc"), "..", ".", "built/../../secret.dsc", "-x.deb", "x" * 201, "s\0.dsc", "s\u00e9.dsc"):
            with self.subTest(name):
                self.check_refused(self.listing(name), f"{name} is no file name".replace("\0", "?"))

    def test_what_is_no_file_of_its_own_is_not_opened(self):
        body = b"contents"
        for kind, make in (
            ("link", lambda it: it.symlink_to("/etc/hostname")),
            ("link", lambda it: it.symlink_to("/dev/zero")),
            ("link", lambda it: it.symlink_to("hello_1.0-1_all.deb")),
            ("link", lambda it: it.symlink_to(it.name)),
            ("fifo", os.mkfifo),
            ("folder", os.mkdir),
            ("device", lambda it: os.mknod(it, 0o666 | stat.S_IFCHR, os.makedev(1, 5))),
        ):
            with self.subTest(kind):
                changes = self.listing("odd.tar.gz", body)
                odd = self.built / "odd.tar.gz"
                try:
                    make(odd)
                except PermissionError:
                    continue
                wanted = "odd.tar.gz is a link: put the file itself there" if kind == "link" else "odd.tar.gz is no regular file"
                self.check_refused(changes, wanted)
                changes.unlink()
                odd.rename(changes)
                self.check_refused(changes, wanted.replace("odd.tar.gz", changes.name))
                os.rmdir(changes) if kind == "folder" else changes.unlink()

    def test_a_file_of_any_size(self):
        """No more is read of it than the archive takes."""
        for name, listed, hint in (("large.tar.gz", True, HINT), ("large.dsc", True, ""), ("large.changes", False, "")):
            changes = self.listing(name) if listed else self.built / name
            with open(self.built / name, "wb") as it:
                it.truncate(1 << 40)
            self.check_refused(changes, f"{name} has more than 4194304 bytes{hint}")

    def check_most(self, body, *words, most=None, name="large.tar.gz"):
        """Checks whether a file with these contents comes: its copy, or that it has more bytes than these."""
        (self.built / name).write_bytes(body)
        done = with_sidecars(*words, self.listing(name, body), self.ready)
        if most:
            hint = "" if name.endswith((".dsc", ".changes")) else HINT
            self.assertEqual((done.stdout, done.stderr, done.returncode), ("", told(f"odd.changes: {name} has more than {most} bytes{hint}"), 1))
            self.assertFalse(self.ready.exists())
            return
        self.assertEqual((done.stderr, done.returncode), ("", 0))
        paths = done.stdout.splitlines()
        self.assertEqual(len(paths), 4)
        self.check_lists(paths)
        self.assertEqual((self.ready / name).read_bytes(), body)
        shutil.rmtree(self.ready)

    def test_the_most_bytes_of_a_file(self):
        """4 MiB if nothing is said, and what --most says, to the byte."""
        mebibyte = bytes(range(256)) * 4096
        self.check_most(4 * mebibyte)
        self.check_most(4 * mebibyte + b"x", most=4194304)
        self.check_most(4 * mebibyte, "--most", "4")
        self.check_most(4 * mebibyte + b"x", "--most", "4", most=4194304)
        self.check_most(4 * mebibyte + b"x", "--most=5")
        self.check_most(5 * mebibyte, "--most", "5")
        self.check_most(5 * mebibyte + b"x", "--most", "5", most=5242880)
        self.check_most(5 * mebibyte + b"x", "--most", "1024")

    def test_the_most_bytes_of_a_text(self):
        """They are the same whatever --most says: no text is read that is longer."""
        for name in ("large.dsc", "large.changes"):
            self.check_most(b"A: " + b"x" * 4194302, "--most", "1024", most=4194304, name=name)
        changes = self.built / "long.changes"
        changes.write_bytes(b"A: " + b"x" * 4194302)
        done = with_sidecars("--most", "1024", changes, self.ready)
        self.assertEqual((done.stdout, done.stderr, done.returncode), ("", told("long.changes: long.changes has more than 4194304 bytes"), 1))

    def test_what_is_no_number_of_mebibytes(self):
        changes = self.changes()
        for word in ("3", "0", "-5", "05", "1025", "10240", "5 MiB", "5M", "4.5", "+5", "", "x", "\u0665"):
            done = with_sidecars(f"--most={word}", changes, self.ready)
            self.assertEqual((done.returncode, done.stdout), (2, ""), word)
            self.assertIn("with_sidecars: error: argument --most: it is no number from 4 to 1024\n", done.stderr)
        self.assertFalse(self.ready.exists())

    def test_the_memory_that_a_large_file_takes(self):
        """It is that of a small one: what is read of it is written before more is read."""
        it, name = tool("bin/with_sidecars"), "large.tar.gz"
        body = bytes(48 << 20)
        (self.built / name).write_bytes(body)
        changes = self.listing(name, body)
        tracemalloc.start()
        self.addCleanup(tracemalloc.stop)
        before = tracemalloc.get_traced_memory()[0]
        it.write_upload(changes, self.ready, most=64 << 20)
        self.assertLess(tracemalloc.get_traced_memory()[1] - before, 2 << 20)
        self.assertEqual((self.ready / name).stat().st_size, len(body))

    def test_a_file_that_changes_while_it_is_read(self):
        """As at the second reading, which copies it."""
        changes = self.changes()
        deb = self.built / "hello_1.0-1_all.deb"
        it = tool("bin/with_sidecars")
        write, size = it.write, deb.stat().st_size

        def other(*words):
            deb.write_bytes(bytes(size))
            write(*words)

        with unittest.mock.patch.object(it, "write", other), self.assertRaisesRegex(it.Wrong, f"^{deb.name} changed while it was read$"):
            it.write_upload(changes, self.ready)

    def test_what_is_no_name_of_a_changes(self):
        good = self.changes().read_text()
        for name, wanted in (
            ("hello_1.0-1_all.dsc", "it is no .changes and no .deb"),
            ("hello\nready.changes", "hello?ready.changes is no file name"),
            ("\x1b]0;pwned\x07.changes", "?]0;pwned?.changes is no file name"),
            ("-x.changes", "-x.changes is no file name"),
            ("\udcff.changes", "\\udcff.changes is no file name"),
        ):
            path = self.built / name
            if name.endswith(".changes"):
                path.write_text(good)
            done = with_sidecars(path, self.ready)
            shown = name.replace("\n", "?").replace("\x1b", "?").replace("\x07", "?").replace("\udcff", "\\udcff")
            self.assertEqual((done.stdout, done.stderr, done.returncode), ("", told(f"{shown}: {wanted}"), 1))
        self.assertFalse(self.ready.exists())

    def odd(self, body):
        """A .changes of the package hello whose .deb has other contents, and the name of that."""
        deb = self.built / "hello_1.0-1_all.deb"
        deb.write_bytes(body)
        text = HEAD.format(package="hello", version="1.0-1")
        for field, digest in (("Checksums-Sha1", "sha1"), ("Checksums-Sha256", "sha256"), ("Files", "md5")):
            text += list_of(field, digest, {deb.name: body})
        changes = self.built / "odd.changes"
        changes.write_text(text)
        return changes, deb.name

    def test_a_deb_of_any_kind(self):
        """Its control paragraph is the one file of the name, and no more of it is read or kept than a sidecar may have."""
        control = CONTROL.format(package="hello", version="1.0-1")
        self.changes()
        good = (self.built / "hello_1.0-1_all.deb").read_bytes()
        tar, size = tar_of([("./control", control, b"0")]), b"%011o" % len(control)
        none, no_tar = "it has no control paragraph, or more than one", "its control files are in no tar"
        for name, tar, wanted in (
            ("no control", tar_of([("./md5sums", "x", b"0")]), none),
            ("a large one", tar_of([("./control", f"{control} {'x' * 20_000_000}\n", b"0")]), "its control paragraph has more than 65536 bytes"),
            ("two", tar_of([("./control", control, b"0"), ("control", control, b"0")]), none),
            ("a link", tar_of([("./control", "", b"2")]), none),
            ("a size that is none", tar.replace(size, b"0000000026x"), no_tar),
            ("a size without end", tar.replace(size, b"\x80" + b"\xff" * 10), no_tar),
            ("a size beyond the end", tar.replace(size, b"00000100000"), none),
            ("half of it", tar[:600], none),
            ("no tar", b"hello" * 200, no_tar),
            ("nothing", b"", none),
        ):
            with self.subTest(name):
                changes, deb = self.odd(deb_with(tar))
                done = with_sidecars(changes, self.ready)
                self.assertEqual((done.stdout, done.stderr, done.returncode), ("", told(f"odd.changes: {deb}: {wanted}"), 1))
        for name, body in (("no .deb", b"hello"), ("nothing", b""), ("half of it", good[:200]), ("another", good.replace(b"control.tar", b"control.zip"))):
            with self.subTest(name):
                done = with_sidecars(self.odd(body)[0], self.ready)
                self.assertEqual((done.stdout, done.returncode), ("", 1))
                self.assertRegex(done.stderr, r"\Awith_sidecars: odd.changes: hello_1.0-1_all.deb: .*dpkg-deb: error: .*\n\Z")
        self.assertFalse(self.ready.exists())

    def test_a_deb_with_much_beside_its_control(self):
        control = CONTROL.format(package="hello", version="1.0-1")
        changes, deb = self.odd(deb_with(tar_of([("./md5sums", "x" * 1_000_000, b"0"), ("./control", control, b"0")])))
        it = tool("bin/with_sidecars")
        self.assertEqual(it.write_upload(changes, self.ready)[-1], self.ready / "odd.changes")
        wanted = f"^{deb}: its control files have more than 900000 bytes$"
        with unittest.mock.patch.object(it, "MOST_CONTROL", 900_000), self.assertRaisesRegex(it.Wrong, wanted):
            it.write_upload(changes, self.ready)

    def test_a_control_paragraph_with_odd_fields(self):
        """The sidecar's name is that of the .deb, and no other."""
        control = CONTROL.format(package="hello", version="1.0-1")
        for text, wanted in (
            (control.replace("Package: hello", "Package: ../hello"), "hello_1.0-1_all.deb is not named by its own fields, as ../hello_1.0-1_all.deb"),
            (control.replace("Package: hello", "Package: \x1b]0;x\x07"), "hello_1.0-1_all.deb is not named by its own fields, as ?]0;x?_1.0-1_all.deb"),
            (control.replace("Package: hello\n", ""), "no field Package"),
            (control.replace("Package", "Pack\0age"), "no field Package"),
            (control + control, "not a field of one paragraph: Package: hello"),
            ("\n", "not a field of one paragraph: "),
        ):
            with self.subTest(text):
                done = with_sidecars(self.odd(deb_with(tar_of([("./control", text, b"0")])))[0], self.ready)
                self.assertEqual((done.stdout, done.stderr, done.returncode), ("", told(f"odd.changes: {wanted}"), 1))
        done = with_sidecars(self.odd(deb_with(tar_of([("./control", control.replace("Ann", "\udcff"), b"0")])))[0], self.ready)
        self.assertEqual(done.stderr, told("odd.changes: hello_1.0-1_all.deb is no text in UTF-8"))

    def test_what_is_there_in_the_folder_is_replaced(self):
        """A link is not followed, nor a second name of a file written to. What can't be replaced is a line."""
        changes = self.changes()
        self.ready.mkdir()
        kept = self.room / "kept"
        kept.write_text("kept\n")
        deb, sidecar = self.ready / "hello_1.0-1_all.deb", self.ready / "hello_1.0-1_all.control"
        for make in (
            lambda it: it.symlink_to(kept),
            lambda it: it.symlink_to(self.room / "none"),
            lambda it: os.link(kept, it),
            os.mkfifo,
            lambda it: it.write_text("other"),
        ):
            for it in (deb, sidecar, self.ready / changes.name):
                it.unlink(missing_ok=True)
                make(it)
            done = with_sidecars(changes, self.ready)
            self.assertEqual((done.stderr, done.returncode), ("", 0))
            self.check_lists(done.stdout.splitlines())
            self.assertEqual((kept.read_text(), (self.room / "none").exists()), ("kept\n", False))
            self.assertEqual({(it.is_symlink(), it.stat().st_mode & 0o777) for it in self.ready.iterdir()}, {(False, 0o666 & ~UMASK)})
        sidecar.unlink()
        sidecar.mkdir()
        done = with_sidecars(changes, self.ready)
        self.assertEqual((done.stdout, done.returncode), ("", 1))
        self.assertRegex(done.stderr, r"\Awith_sidecars: hello_1.0-1_amd64.changes: .*Is a directory: .*\n\Z")
        self.assertEqual(sorted(it.name for it in self.ready.iterdir()), ["hello_1.0-1_all.control", "hello_1.0-1_all.deb", changes.name])

    def test_a_folder_of_any_kind(self):
        changes = self.changes()
        (self.room / "loop").symlink_to("loop")
        (self.room / "file").write_text("")
        (self.room / "here").symlink_to(self.built)
        for name in ("loop", "loop/ready", "file", "file/ready", "here", "here/../built", "x" * 300):
            done = with_sidecars(changes, self.room / name)
            self.assertEqual((done.stdout, done.returncode), ("", 1), name)
            self.assertRegex(done.stderr, r"\Awith_sidecars: hello_1.0-1_amd64.changes: .*\n\Z")
        for name, status in (("re\nady", 2), ("\x1b]0;pwned\x07", 2), ("\udcff\u00e9", 0)):
            done = with_sidecars(changes, self.room / name, errors="surrogateescape")
            self.assertEqual((done.returncode, bool(done.stdout)), (status, not status), done.stderr)
            self.assertEqual([os.path.exists(it) for it in done.stdout.splitlines()], [True] * (0 if status else 3))
        deep = "/".join("d" * 1500)
        self.assertEqual(with_sidecars(changes, deep, cwd=self.room).returncode, 0)
        self.assertTrue((self.room / deep / changes.name).exists())
        run("rm", "-r", self.room / "d").check_returncode()  # which Python can't

    def test_ended_it_leaves_nothing(self):
        """Here it is ended while it has a fifo in place of dpkg-deb, which waits."""
        changes = self.changes()
        os.mkfifo(self.room / "waits")
        (self.room / "dpkg-deb").write_text(f"#!/bin/sh\ntouch {self.room}/began\nread line < {self.room}/waits\n")
        (self.room / "dpkg-deb").chmod(0o755)
        with subprocess.Popen([sys.executable, TOOL, changes, self.ready], env={"PATH": f"{self.room}:/usr/bin:/bin"}, stderr=subprocess.PIPE) as process:
            while process.poll() is None and not (self.room / "began").exists():
                time.sleep(0.01)
            process.terminate()
            self.assertEqual((process.wait(LONG), process.stderr.read()), (143, b""))
        self.assertFalse(self.ready.exists())

    def test_no_changes_ends_it_by_a_traceback(self):
        """Each is another that was changed at random places: in its lists, its names, its signature and its control paragraph."""
        it, chance, statuses = tool("bin/with_sidecars"), random.Random(62), collections.Counter()
        changes = self.changes(armoured=True)
        (self.built / "hello_1.0-1.dsc").write_text("Format: 3.0 (quilt)\n")
        deb = self.built / "hello_1.0-1_all.deb"
        good, contents = changes.read_bytes(), deb.read_bytes()
        odd = [b"\0", b"\n", b"\r", b"\n\n", b"\n ", b"\t", b":", b"/", b"..", b"-", b"\xff", b"\xc2\x85", b"\xe2\x80\xa8", b"\x1b[2J", b"9" * 30, b""]
        odd.append(b"-----BEGIN PGP SIGNATURE-----\n")
        for number in range(400):
            text, body = bytearray(good), bytearray(contents)
            for _ in range(chance.randrange(4)):
                start = chance.randrange(len(text))
                text[start:start + chance.choice((0, 1, 1, 40))] = chance.choice(odd)
            if number % 8 == 0:
                start = chance.randrange(len(body))
                body[start:start + chance.choice((0, 1, 200))] = chance.choice(odd)
                for digest in ("md5", "sha1", "sha256"):
                    text = text.replace(hashlib.new(digest, contents).hexdigest().encode(), hashlib.new(digest, body).hexdigest().encode())
                text = text.replace(b" %d " % len(contents), b" %d " % len(body))
            changes.write_bytes(text)
            deb.write_bytes(body)
            with self.subTest(bytes(text)), contextlib.redirect_stderr(io.StringIO()) as errors, contextlib.redirect_stdout(io.StringIO()) as printed:
                status = it.main([str(changes), str(self.ready)])
                self.assertNotRegex(errors.getvalue() + printed.getvalue(), "[\x00-\x09\x0b-\x1f\x7f-\x9f]")
                self.assertEqual(bool(printed.getvalue()), status == 0)
                statuses[status] += 1
        self.assertEqual((set(statuses), min(statuses.values()) > 50), ({0, 1}, True), statuses)

    def test_what_is_told_has_no_control_character(self):
        """Of a long text the beginning is printed. A file name that is taken for an option is one of these texts,
        too."""
        changes = self.changes()
        good = changes.read_text()
        changes.write_text(f"{good}no field \x1b]0;pwned\x07\x7f\x9b\n")
        wanted = told(f"{changes.name}: not a field of one paragraph: no field ?]0;pwned???")
        self.assertEqual(with_sidecars(changes, self.ready).stderr, wanted)
        changes.write_text(f"{good}{'x' * 100_000}\n")
        text = f"{changes.name}: not a field of one paragraph: {'x' * 400}"
        self.assertEqual(with_sidecars(changes, self.ready).stderr, told(f"{text[:400]}.."))
        done = with_sidecars("-\x1b]0;pwned\x07.changes", changes, self.ready)
        self.assertEqual((done.returncode, done.stdout), (2, ""))
        self.assertEqual(done.stderr.splitlines()[1], "with_sidecars: error: unrecognized arguments: -?]0;pwned?.changes")

    def test_help(self):
        done = run(sys.executable, TOOL, "--help")
        self.assertEqual((done.stderr, done.returncode), ("", 0))
        self.assertIn("with_sidecars [--section SECTION] [--most N] FILE.changes.. FOLDER\n", done.stdout)
        self.assertIn("MaxFileSize", done.stdout)

    def test_nobody_reads_what_is_printed(self):
        """As after `| head -1`, once head has ended: each command of bin/ ends without a traceback."""
        for name, status in {"with_sidecars": 1, "upload": 3, "adopt": 1, "backup": 1}.items():
            reads, writes = os.pipe()
            os.close(reads)
            done = subprocess.run([sys.executable, f"{ROOT}/bin/{name}", "--help"], stdin=subprocess.DEVNULL, stdout=writes, stderr=subprocess.PIPE, text=True)
            os.close(writes)
            self.assertEqual((done.stderr, done.returncode), ("", status), name)

    def test_a_package_under_another_name(self):
        deb = self.built / self.build("hallo", "1.0-1")
        deb.rename(self.built / "other_1.0-1_all.deb")
        done = with_sidecars(self.changes(more=["other_1.0-1_all.deb"]), self.ready)
        wanted = "other_1.0-1_all.deb is not named by its own fields, as hallo_1.0-1_all.deb"
        self.assertEqual(done.stderr, told(f"hello_1.0-1_amd64.changes: {wanted}"))

    def lone(self, file, text):
        """Builds a package file of this control paragraph, which has a name of its own."""
        tree = self.room / "lone"
        (tree / "DEBIAN").mkdir(parents=True, exist_ok=True)
        (tree / "DEBIAN/control").write_bytes(text.encode("utf-8", "surrogateescape"))
        words = ("dpkg-deb", "--root-owner-group", "--nocheck", "--build", tree, self.built / file)
        run(*words, env={**os.environ, "SOURCE_DATE_EPOCH": "1467435600"}).check_returncode()
        return self.built / file

    def test_package_files_alone(self):
        """Those of one source and version come together, each by the name that its fields give it. The same files give the same."""
        text = CONTROL.format(package="hello", version="1:1.0-1")
        other = text.replace("Package: hello", "Package: hello-dev\nSource: hello (1:1.0-1)\nSection: contrib/devel").replace("1:1.0-1\nA", "1:1.0-1+b1\nA")
        debs = [self.lone("hello-latest.deb", text), self.lone("dev 2.deb", other), self.lone("world_1.0-1_all.deb", CONTROL.format(package="world", version="1.0-1"))]
        words = ("--distribution", "box", "--by", "Ann \u00c5 <ann@example.org>", *debs)
        done = with_sidecars(*words, self.ready)
        named = "{} is {} by its own fields, and is named so"
        wanted = told(named.format("hello-latest.deb", "hello_1.0-1_all.deb"), named.format("dev 2.deb", "hello-dev_1.0-1+b1_all.deb"))
        self.assertEqual((done.returncode, sorted(done.stderr.splitlines())), (0, sorted(wanted.splitlines())))
        names = ["hello-dev_1.0-1+b1_all.deb", "hello-dev_1.0-1+b1_all.control", "hello_1.0-1_all.deb", "hello_1.0-1_all.control", "hello_1.0-1_all.changes"]
        names += ["world_1.0-1_all.deb", "world_1.0-1_all.control", "world_1.0-1_all.changes"]
        paths = done.stdout.splitlines()
        self.assertEqual(paths, [str(self.ready / it) for it in names])
        self.check_lists(paths[:5])
        self.check_lists(paths[5:])
        made = (self.ready / names[4]).read_text(encoding="utf-8")
        self.assertIn("Date: Sat, 02 Jul 2016 05:00:00 +0000\nSource: hello\nArchitecture: all\nVersion: 1:1.0-1\nDistribution: box\n", made)
        self.assertIn("Maintainer: Ann <ann@example.org>\nChanged-By: Ann \u00c5 <ann@example.org>\nChanges:\n", made)
        self.assertRegex(made, r"(?m)^ \S+ \d+ contrib/devel optional hello-dev_1.0-1\+b1_all.deb$")
        self.assertRegex(made, r"(?m)^ \S+ \d+ - optional hello_1.0-1_all.control$")
        bodies = {it: (self.ready / it).read_bytes() for it in names}
        again = with_sidecars(*words[:4], *reversed(debs), self.ready)
        self.assertEqual((again.returncode, bodies), (0, {it: (self.ready / it).read_bytes() for it in names}))
        done = with_sidecars("--section", "utils", *words, self.room / "one")
        self.assertEqual(len(re.findall(" utils optional ", (self.room / "one" / names[4]).read_text(encoding="utf-8"))), 4)
        self.check_accepted([str(self.room / "one" / it) for it in names[:5]], ["Package: hello", "Package: hello-dev"])

    def test_what_is_no_package_file_to_upload(self):
        """It is said, and nothing of any of them is written."""
        good = CONTROL.format(package="hello", version="1.0-1")
        first = self.lone("first.deb", good)
        for change, wanted in (
            (("Maintainer:", "Other:"), "its control file has no Maintainer"),
            (("Description: greets", "Filename: x\nDescription: greets"), "its control file has a field Filename"),
            (("greets", "gr\udce9ets"), "its control file is not UTF-8"),
            (("greets", "gr\x1b[2Jeets"), "its control file has a control character"),
            (("Package: hello", "Package: Hello"), "Hello is no name of a package"),
            (("Package: hello", "Source: hello (1) (2)\nPackage: hello"), "hello (1) (2) is no name of a source"),
            (("Package: hello", "Source: hello (a)\nPackage: hello"), "its control file has the version a"),
            (("Architecture: all", "Architecture: any"), "its control file has the architecture any"),
            (("1.0-1", "a1.0"), "its control file has the version a1.0"),
            (("1.0-1", "1.0-"), "its control file has the version 1.0-"),
            (("Architecture: all", "Section: two words\nArchitecture: all"), "two words is no section: give --section"),
            (("nothing", "something"), "two files are hello_1.0-1_all.deb by their fields, with other contents"),
            (("hello\nVersion: 1.0-1", "hello\nSource: hello (1.0-1)\nVersion: 1.0-1+b1"), "two versions of hello for all are of one source and version"),
        ):
            with self.subTest(wanted):
                bad = self.lone("odd.deb", good.replace(*change))
                done = with_sidecars("--distribution", "box", first, bad, self.ready)
                lines = [it for it in done.stderr.splitlines() if not it.endswith(" by its own fields, and is named so")]
                lines = [it.replace("first.deb", "odd.deb") for it in lines]
                self.assertEqual((done.returncode, done.stdout, lines), (1, "", [f"with_sidecars: odd.deb: {wanted}"]))
                self.assertFalse(self.ready.exists())
        (self.built / "odd.deb").write_bytes(b"no package")
        (self.built / "link.deb").symlink_to("first.deb")
        os.mkfifo(self.built / "fifo.deb")
        with open(self.built / "large.deb", "wb") as it:
            it.truncate(1 << 40)
        for name, wanted in (
            ("odd.deb", "odd.deb: dpkg-deb: error: "),
            ("link.deb", "link.deb is a link: put the file itself there"),
            ("fifo.deb", "fifo.deb is no regular file"),
            ("large.deb", f"large.deb has more than 4194304 bytes{HINT}"),
        ):
            done = with_sidecars("--distribution", "box", first, self.built / name, self.ready)
            self.assertEqual((done.returncode, done.stdout, done.stderr.startswith(told(wanted)[:-1])), (1, "", True), done.stderr)
        with open(self.built / "large.deb", "wb") as it:
            it.truncate((5 << 20) + 1)
        for word, wanted in (("5", f"large.deb has more than 5242880 bytes{HINT}"), ("6", "large.deb: dpkg-deb: error: ")):
            done = with_sidecars("--distribution", "box", "--most", word, first, self.built / "large.deb", self.ready)
            self.assertEqual((done.returncode, done.stdout, done.stderr.startswith(told(wanted)[:-1])), (1, "", True), done.stderr)
        self.assertEqual(with_sidecars("--distribution", "box", first, self.built).returncode, 1)
        for words in ((), ("--distribution", "two words"), ("--distribution", "box", "--by", "Ann\nOther: x")):
            self.assertEqual(with_sidecars(*words, first, self.ready).returncode, 2, words)
        self.assertEqual(with_sidecars("--distribution", "box", self.changes(), self.ready).returncode, 2)
        self.assertFalse(self.ready.exists())

    def test_no_package_file_ends_it_by_a_traceback(self):
        """Each is another that was changed at random places, in its control paragraph or in its bytes."""
        it, chance, statuses = tool("bin/with_sidecars"), random.Random(66), collections.Counter()
        good = CONTROL.format(package="hello", version="1.0-1").encode()
        odd = [b"\0", b"\n", b"\r", b"\n\n", b"\n ", b"\t", b":", b"/", b"..", b"-", b"\xff", b"\xc2\x85", b"\x1b[2J", b"9" * 30, b"(", b"#", b""]
        deb = self.built / "odd.deb"
        for number in range(300):
            text = bytearray(good)
            for _ in range(chance.randrange(3)):
                start = chance.randrange(len(text))
                text[start:start + chance.choice((0, 1, 1, 40))] = chance.choice(odd)
            body = bytearray(deb_with(tar_of([("./control", text.decode(errors="surrogateescape"), b"0")])))
            if number % 4 == 0:
                start = chance.randrange(len(body))
                body[start:start + chance.choice((0, 1, 200))] = chance.choice(odd)
            deb.write_bytes(body)
            with self.subTest(bytes(text)), contextlib.redirect_stderr(io.StringIO()) as errors, contextlib.redirect_stdout(io.StringIO()) as printed:
                status = it.main(["--distribution", "box", str(deb), str(self.ready)])
                self.assertNotRegex(errors.getvalue() + printed.getvalue(), "[\x00-\x09\x0b-\x1f\x7f-\x9f]")
                self.assertEqual(bool(printed.getvalue()), status == 0)
                statuses[status] += 1
        self.assertEqual((set(statuses), min(statuses.values()) > 30), ({0, 1}, True), statuses)

    @needs("dpkg-buildpackage")
    def test_what_dpkg_buildpackage_makes(self):
        debian = self.built / "hello/debian"
        (debian / "source").mkdir(parents=True)
        (debian / "source/format").write_text("3.0 (quilt)\n")
        (debian / "control").write_text(SOURCE_CONTROL)
        (debian / "changelog").write_text(CHANGELOG)
        (debian / "rules").write_text(RULES)
        (debian / "rules").chmod(0o755)
        (self.built / "hello/greeting").write_text("hello\n")
        run("tar", "-czf", "hello_1.0.orig.tar.gz", "hello/greeting", cwd=self.built).check_returncode()
        made = run("dpkg-buildpackage", "--no-sign", "--no-check-builddeps", cwd=self.built / "hello")
        self.assertEqual(made.returncode, 0, made.stderr)
        dsc = self.built / "hello_1.0-1.dsc"
        changes = next(self.built.glob("*.changes"))
        self.assertIn("buildinfo", changes.read_text())
        unsigned, text = dsc.read_bytes(), changes.read_text()
        signed = ARMOURED.format(text=unsigned.decode()).encode()
        for digest in ("md5", "sha1", "sha256"):
            text = text.replace(hashlib.new(digest, unsigned).hexdigest(), hashlib.new(digest, signed).hexdigest())
        for body in (unsigned, signed):
            dsc.write_bytes(body)
            if body is signed:
                changes.write_text(text.replace(f" {len(unsigned)} ", f" {len(signed)} "))
            done = with_sidecars(changes, self.ready)
            signature = [f"took the signature off {dsc.name}: the archive reads none"] * (body is signed)
            buildinfo = f"left out {changes.stem}.buildinfo: the archive takes no .buildinfo"
            self.assertEqual((done.stderr, done.returncode), (told(*signature, buildinfo), 0))
            self.assertEqual((self.ready / "hello_1.0-1.dsc").read_bytes(), unsigned)
            self.check_lists(done.stdout.splitlines())
        self.check_accepted(done.stdout.splitlines(), ["Package: hello"])


if __name__ == "__main__":
    main()
