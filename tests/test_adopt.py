"""Tests of bin/adopt, on archives that reprepro, aptly, apt-ftparchive and dpkg-scanpackages make of packages that dpkg-deb and dpkg-source make. If
the program of program.py is there it takes what comes, and the real apt looks at both."""
import contextlib
import functools
import gzip
import hashlib
import http.server
import io
import lzma
import os
import pathlib
import pty
import re
import shutil
import subprocess
import sys
import tempfile
import threading
import time
import unittest
import unittest.mock

from tests import snippets
from tests.ports import free_address, free_port
from tests.program import PROGRAM, ROOT, Serving
from tests.snippets import snippet
from tests.test_progress import lines_of, rest_of, rows_of
from tests.test_upload import TOO_LARGE, Archive, Server
from tests.tools import tool
from tests.wants import main, missing, needs, path_of

MOMENT = str(int(time.time()))
TOOL = f"{ROOT}/bin/adopt"
ADOPT = tool("bin/adopt")
FIELDS = """Package: {name}
Version: {version}
Architecture: {architecture}
Maintainer: Ann <ann@example.org>
Section: {section}
Priority: optional
{more}Description: greets
 It says hello, and then
 .
 nothing more.
"""
DEBIAN = {
    "source/format": "3.0 (quilt)\n",
    "control": "Source: {name}\nSection: utils\nPriority: optional\nMaintainer: Ann <ann@example.org>\nBuild-Depends: debhelper-compat (= 13)\n"
    "Standards-Version: 4.6.2\n\nPackage: {name}\nArchitecture: any\nDescription: greets\n",
    "changelog": "{name} ({version}) unstable; urgency=low\n\n  * Made.\n\n -- Ann <ann@example.org>  Sat, 02 Jul 2016 05:00:00 +0000\n",
    "rules": "#!/usr/bin/make -f\n",
}
ENVIRONMENT = {**os.environ, "SOURCE_DATE_EPOCH": "1467435600", "LC_ALL": "C.UTF-8"}
# The bytes of a MiB, and what is said below a file that an archive may take all the same.
MEBIBYTE, HINT = 1 << 20, ": MaxFileSize may let it in"
# The Date of a Release, and a later one.
DATE, LATER = "Sat, 02 Jul 2016 05:00:00 UTC", "Sat, 02 Jul 2016 05:00:01 UTC"
BOX = "Codename: box\nArchitectures: amd64 source\nComponents: main\n"
DISTRIBUTIONS = """Origin: Example
Label: Example
Suite: stable
Codename: sound
Architectures: amd64 arm64 source
Components: main contrib
UDebComponents: main
Description: what is sound
NotAutomatic: yes

Origin: Example
Suite: testing
Codename: brave
Architectures: amd64 source
Components: main contrib
"""
# Suites of which machines miss nothing in the new archive, and such suites with signatures.
AUTOMATIC = DISTRIBUTIONS.replace("NotAutomatic: yes\n", "")
SIGNED = AUTOMATIC.replace("Components: main contrib\n", "Components: main contrib\nSignWith: ann@example.org\n")


def run(*words, cwd=None, status=0, env=None, **more):
    ran = subprocess.run([str(it) for it in words], cwd=cwd, capture_output=True, text=True, check=False, env=env or ENVIRONMENT, timeout=600, **more)
    if status is not None and ran.returncode != status:
        raise AssertionError(f"{words}: {ran.returncode}\n{ran.stdout}{ran.stderr}")
    return ran


class Room:
    """Packages and sources, and the archives of other programs that are made of them."""

    def __init__(self, folder):
        self.folder = pathlib.Path(folder)

    def deb(self, name, version="1.0-1", architecture="amd64", section="utils", more="", size=0, ending="deb", description=None, file=None):
        """Makes a package file."""
        root = self.folder / "build"
        shutil.rmtree(root, ignore_errors=True)
        (root / "DEBIAN").mkdir(parents=True)
        text = FIELDS.format(name=name, version=version, architecture=architecture, section=section, more=more)
        (root / "DEBIAN/control").write_bytes(description(text) if description else text.encode())
        (root / "usr").mkdir()
        (root / "usr" / name).write_bytes(os.urandom(size) or f"{name} {version}\n".encode())
        out = self.folder / (file or f"{name}_{version.rpartition(':')[2]}_{architecture}.{ending}")
        run("dpkg-deb", "-Zgzip" if size else "-Zxz", "--root-owner-group", "--nocheck", "--build", root, out)
        return out

    def padded(self, name, size, folder):
        """A package file of this size in a folder, whose data are zeros: nobody here looks into them. It is made if it is not there."""
        path = self.folder / folder / f"{name}.deb"
        body = (path if path.exists() else self.deb(name, file=f"{folder}/{name}.deb")).read_bytes()
        start = body.index(b"data.tar")
        head = b"data.tar".ljust(16) + b"0".ljust(12) + b"0".ljust(6) * 2 + b"100644".ljust(8) + b"%d" % (size - start - 60)
        with open(path, "wb") as file:
            file.write(body[:start] + head.ljust(58) + b"`\n")
            file.truncate(size)
        return path

    def native(self, name, size, folder):
        """Makes a source in a folder, which has one file of this size beside its .dsc."""
        body, tar = bytes(size), f"{name}_1.0.tar.gz"
        (self.folder / folder / tar).write_bytes(body)
        lists = "".join(f"{field}:\n {hashlib.new(digest, body).hexdigest()} {size} {tar}\n" for field, digest in ADOPT.sidecars.LISTS.items())
        text = f"Format: 3.0 (native)\nSource: {name}\nBinary: {name}\nArchitecture: any\nVersion: 1.0\nMaintainer: Ann <ann@example.org>\n{lists}"
        (self.folder / folder / f"{name}_1.0.dsc").write_text(text)

    def source(self, name, version, is_signed=False):
        """Makes a source, whose upstream is made once."""
        upstream = version.rpartition("-")[0].rpartition(":")[2]
        folder = self.folder / f"{name}-{upstream}"
        shutil.rmtree(folder, ignore_errors=True)
        folder.mkdir()
        (folder / "greeting").write_text(f"hello, {name}\n")
        orig = self.folder / f"{name}_{upstream}.orig.tar.gz"
        if not orig.exists():
            run("tar", "--sort=name", "--mtime=@1467435600", "--owner=0", "--group=0", "-czf", orig, folder.name, cwd=self.folder)
        for path, text in DEBIAN.items():
            (folder / "debian" / path).parent.mkdir(parents=True, exist_ok=True)
            (folder / "debian" / path).write_text(text.format(name=name, version=version))
        (folder / "debian/rules").chmod(0o755)
        run("dpkg-source", "-b", folder.name, cwd=self.folder)
        dsc = self.folder / f"{name}_{version.rpartition(':')[2]}.dsc"
        if is_signed:
            self.sign(dsc)
        return dsc

    def gnupg(self):
        """The folder of a key. It is made if it is not there."""
        home = self.folder / "gnupg"
        if not home.exists():
            home.mkdir(mode=0o700)
            run("gpg", "--homedir", home, "--batch", "--passphrase", "", "--quick-generate-key", "Ann <ann@example.org>", "default", "sign", "never")
        return home

    def sign(self, path):
        run("gpg", "--homedir", self.gnupg(), "--batch", "--yes", "--clear-sign", "--output", f"{path}.asc", path)
        os.replace(f"{path}.asc", path)

    def packages(self):
        """What the archives are made of: by suites, package files and sources."""
        lat = [self.source("lat", "1.0-1"), self.deb("lat")]
        lat2 = [self.source("lat", "1.0-2", is_signed=True), self.deb("lat", "1.0-2", more="Depends: libc6 (>= 2.3), lat-data\n")]
        # binaries of one source in two components, one for all architectures, and one that was built again
        libx = [self.source("libx", "1:2.0-1"), self.deb("libx1", "1:2.0-1", more="Source: libx\nMulti-Arch: same\n")]
        libx += [self.deb("libx-doc", "1:2.0-1", "all", more="Source: libx\n")]
        libx += [self.deb("libx-extra", "1:2.0-1", section="contrib/utils", more="Source: libx\n")]
        libx += [self.deb("libx1", "1:2.0-1+b1", "arm64", more="Source: libx (1:2.0-1)\nMulti-Arch: same\n")]
        lone = [self.deb("lone", "0.3"), self.deb("lone", "0.2", "arm64")]
        large = [self.deb("large", size=5_000_000)]
        latin = [self.deb("latin", description=lambda text: text.replace("hello", "h\u00e9llo").encode("latin-1"))]
        udeb = [self.deb("tiny-udeb", section="debian-installer", ending="udeb")]
        return {"sound": [*lat, *libx, *lone, *large, *latin, *udeb], "brave": [*lat2, lone[0]]}

    def reprepro(self, packages=None, distributions=DISTRIBUTIONS):
        """An archive of these packages by suites, or of those above."""
        base = self.folder / "reprepro"
        (base / "conf").mkdir(parents=True)
        (base / "conf/distributions").write_text(distributions)
        for suite, files in (packages or self.packages()).items():
            for file in files:
                word = {".deb": "includedeb", ".udeb": "includeudeb", ".dsc": "includedsc"}[file.suffix]
                more = ["--ignore=undefinedtarget", "-S", "utils", "-P", "optional"] if file.suffix == ".dsc" else []
                run("reprepro", "-s", "-b", base, *more, word, suite, file, env=self.signing() if "SignWith" in distributions else None)
        return base

    def signing(self):
        """The environment of a program that signs."""
        return {**ENVIRONMENT, "GNUPGHOME": str(self.gnupg())}


@needs("dpkg-source", "dpkg-scanpackages")
class Adopting(unittest.TestCase):
    maxDiff = None

    def setUp(self):
        room = tempfile.TemporaryDirectory()
        self.addCleanup(room.cleanup)
        self.folder = pathlib.Path(room.name)
        self.room = Room(room.name)

    def adopt(self, *words, status=0):
        return run(sys.executable, TOOL, *words, status=status)

    def inside(self, *words):
        """The status and both outputs of a line that is run by this process, which takes less time."""
        out, err = io.StringIO(), io.StringIO()
        with contextlib.redirect_stdout(out), contextlib.redirect_stderr(err), unittest.mock.patch.object(ADOPT.signal, "signal"):
            try:
                status = ADOPT.main([str(it) for it in words])
            except SystemExit as end:
                status = end.code
        return status, out.getvalue(), err.getvalue()

    def made(self, old, *words, status=1):
        """The list of the uploads of a tree, and what can't come."""
        ran = self.adopt("make", old, self.folder / "ready", *words, status=status)
        path = self.folder / "list"
        path.write_text(ran.stdout)
        return path, ran.stderr.splitlines()

    def names(self, list_, ending):
        """The names in a list that end so."""
        return [line.rpartition("/")[2] for line in list_.read_text().splitlines() if line.endswith(ending)]

    @needs("reprepro", "gpg", "apt-get")
    def test_reprepro(self):
        old = self.room.reprepro()
        conf = self.adopt("conf", old)
        brave = "Codename: brave\nSuite: testing\nOrigin: Example\nArchitectures: amd64 source\nComponents: main contrib\nMaxFileSize: 5\n"
        sound = "Codename: sound\nSuite: stable\nOrigin: Example\nLabel: Example\nDescription: what is sound\nArchitectures: amd64 arm64 source\n"
        self.assertEqual(conf.stdout, f"{brave}\n{sound}Components: main contrib\n")
        self.assertEqual(conf.stderr, "adopt: sound: its Release will have no NotAutomatic: yes\n")
        (self.folder / "box.conf").write_text(conf.stdout)
        list_, told = self.made(old)
        lines = [
            "adopt: sound tiny-udeb 1.0-1 amd64: the archive keeps no udebs and no ddebs",
            f"adopt: sound large 1.0-1 amd64: large_1.0-1_amd64.deb has more than 4194304 bytes{HINT}",
            "adopt: sound latin 1.0-1 amd64: its control file is not UTF-8",
        ]
        self.assertEqual(told, [*lines, "adopt: 7 uploads, and 3 packages that can't come"])
        names = [
            "lat_1.0-2_brave.changes", "lone_0.3_brave.changes", "large_1.0-1_sound.changes", "lat_1.0-1_sound.changes",
            "libx_2.0-1_sound_contrib.changes", "libx_2.0-1_sound.changes", "lone_0.2_sound.changes", "lone_0.3_sound.changes"]
        self.assertEqual(self.names(list_, ".changes"), [it for it in names if not it.startswith("large")])
        words = ("--conf", self.folder / "box.conf")
        list_, told = self.made(old, *words)
        self.assertEqual(told, [lines[0], lines[2], "adopt: 8 uploads, and 2 packages that can't come"])
        self.assertEqual(self.names(list_, ".changes"), names)
        first = {path: path.read_bytes() for path in (self.folder / "ready").rglob("*") if path.is_file()}
        self.made(old, *words)
        self.assertEqual(first, {path: path.read_bytes() for path in (self.folder / "ready").rglob("*") if path.is_file()})
        self.taken(old, conf.stdout, list_, ["release sound NotAutomatic: yes in OLD, none in NEW", "missing sound latin 1.0-1 amd64"])
        self.check_apt(old, self.folder / "www", ("sound", "brave"), ("latin",), "main contrib")

    def apt_view(self, tree, suites, components="main"):
        """What the real apt knows of a tree: of each package and source the fields by which it goes."""
        place = snippets.Room()
        self.addCleanup(place.close)
        lines = "".join(f"{kind} [trusted=yes] file:{tree} {suite} {components}\n" for suite in suites for kind in ("deb", "deb-src"))
        place.apt(lines)
        both = "-o APT::Architectures::=amd64 -o APT::Architectures::=arm64"
        status, printed, told = place.run(f"apt-get {both} update && apt-cache {both} dumpavail")
        self.assertEqual(status, 0, printed + told)
        view, names = {}, ("depends", "source", "multi-arch", "sha256", "size", "description")
        for fields in ADOPT.paragraphs(printed.partition("Package:")[1] + printed.partition("Package:")[2]):
            if "filename" in fields:
                view[fields["package"], fields["architecture"], fields["version"]] = [fields.get(it, "").split() for it in names]
        return view

    def check_apt(self, old, new, suites, without, components="main"):
        """Checks that apt knows the same of both trees, but for packages of these names."""
        mine, theirs = self.apt_view(old, suites, components), self.apt_view(new, suites, components)
        self.assertTrue(theirs)
        self.assertEqual({key: it for key, it in mine.items() if key[0] not in without}, theirs)

    @needs("aptly")
    def test_aptly(self):
        """A suite that has several versions: the greatest comes."""
        room, home = self.room, self.folder / "aptly"
        files = [*(room.deb("lone", it) for it in ("0.2", "0.10", "0.9")), *(room.source("lat", it) for it in ("1.0-1", "1.0-2")), room.deb("lat", "1.0-2")]
        config = self.folder / "aptly.conf"
        config.write_text(f'{{"rootDir": "{home}", "gpgDisableSign": true}}')
        run("aptly", f"-config={config}", "repo", "create", "-distribution=box", "box")
        run("aptly", f"-config={config}", "repo", "add", "box", *files)
        words = ("-skip-signing", "-architectures=amd64,source", "-origin=Example", "-label=Example", "box")
        run("aptly", f"-config={config}", "publish", "repo", *words)
        old = home / "public"
        conf = self.adopt("conf", old).stdout
        wanted = "Codename: box\nSuite: box\nOrigin: Example\nLabel: Example\nDescription: Generated by aptly\nArchitectures: amd64 source\nComponents: main\n"
        self.assertEqual(conf, wanted)
        list_, told = self.made(old, "--by", "Ann <ann@example.org>")
        self.assertEqual(sorted(told), [
            "adopt: 2 uploads, and 3 packages that can't come",
            "adopt: box lat 1.0-1 source: the suite also has 1.0-2, and shows one version alone",
            "adopt: box lone 0.2 amd64: the suite also has 0.10, and shows one version alone",
            "adopt: box lone 0.9 amd64: the suite also has 0.10, and shows one version alone"])
        self.taken(old, conf + "Uploaders:\n * by Ann <ann@example.org>\n", list_, [])

    def suite(self, old, name, index, ending, pack):
        """A suite of a tree, whose packages are those of a folder of its name."""
        folder = old / "dists" / name / "main/binary-amd64"
        folder.mkdir(parents=True)
        (folder / f"Packages{ending}").write_bytes(pack(index.encode("utf-8", "surrogateescape")))
        (old / "dists" / name / "Release").write_text(f"Codename: {name}\nArchitectures: amd64\nComponents: main\n")

    def test_what_cannot_come(self):
        old = self.folder / "old"
        for name in ("one", "two"):
            (old / name).mkdir(parents=True)
        for folder, name in (("one", "twice"), ("two", "twice"), ("one", "gone"), ("one", "bare"), ("one", "other"), ("one", "good")):
            size = 10 if name == "twice" else 0
            edit = {"bare": lambda text: re.sub(r"Description:(?:.|\n)*", "", text).encode(), "other": None}.get(name)
            self.room.deb(name, size=size, file=f"old/{folder}/{name}_1.0-1_amd64.deb", description=edit)
        scan = lambda name: run("dpkg-scanpackages", "-m", name, cwd=old).stdout
        one, two = scan("one"), scan("two")
        (old / "one/gone_1.0-1_amd64.deb").unlink()
        with open(old / "one/other_1.0-1_amd64.deb", "r+b") as file:
            file.seek(-1, os.SEEK_END)
            file.write(b"x")
        self.suite(old, "one", one, ".gz", gzip.compress)
        self.suite(old, "two", two, ".xz", lzma.compress)
        list_, told = self.made(old)
        self.assertEqual(told, [
            "adopt: one bare 1.0-1 amd64: its control file has no Description",
            "adopt: one gone 1.0-1 amd64: one/gone_1.0-1_amd64.deb is not there",
            "adopt: one other 1.0-1 amd64: one/other_1.0-1_amd64.deb is not the file that the index lists",
            "adopt: two twice 1.0-1 amd64: twice_1.0-1_amd64.deb has other contents in another suite, or in another version without its epoch",
            "adopt: 2 uploads, and 4 packages that can't come"])
        self.taken(old, self.adopt("conf", old).stdout, list_, [
            "missing one bare 1.0-1 amd64", "missing one gone 1.0-1 amd64", "missing one other 1.0-1 amd64", "missing two twice 1.0-1 amd64"])

    def test_a_folder(self):
        """Package files under any names, with an index and without: they come to the suite that is named."""
        old = self.folder / "old"
        (old / "sub").mkdir(parents=True)
        for name, file in (("vendor", "vendor-latest.deb"), ("other", "sub/other_1%3a1.0-1_amd64.deb")):
            self.room.deb(name, "1:1.0-1", file=f"old/{file}")
        lat = self.room.source("lat", "1.0-1")
        for path in (lat, *self.folder.glob("lat_*.tar.*")):
            shutil.copy(path, old / "sub")
        (old / "bad.deb").write_bytes(b"no package")
        conf = self.adopt("conf", old, "--suite", "box").stdout
        self.assertEqual(conf, "Codename: box\nArchitectures: amd64 source\nComponents: main\n")
        list_, told = self.made(old, "--suite", "box")
        self.assertRegex(told[0], "^adopt: bad.deb: dpkg-deb: error: ")
        self.assertEqual(told[1:], ["adopt: 3 uploads, and 1 packages that can't come"])
        self.assertEqual(self.names(list_, ".deb"), ["other_1.0-1_amd64.deb", "vendor_1.0-1_amd64.deb"])
        (old / "bad.deb").unlink()
        (old / "Packages").write_text(run("dpkg-scanpackages", "-m", ".", cwd=old).stdout)
        (old / "Sources").write_text(run("dpkg-scansources", ".", cwd=old).stdout)
        flat, told = self.made(old, "--suite", "box", status=0)
        self.assertEqual(told, ["adopt: 3 uploads, and 0 packages that can't come"])
        self.assertEqual(flat.read_text(), list_.read_text())
        self.taken(old, conf, flat, [], "--suite", "box")

    def test_how_often_a_package_is_read(self):
        """dpkg-deb is asked once for each package file, with an index and without."""
        old = self.on_server("p1", "p2", "p3")
        control_of = ADOPT.sidecars.control_of
        for tree in (old, old / "pool"):
            with unittest.mock.patch.object(ADOPT.sidecars, "control_of", side_effect=control_of) as asked:
                self.assertEqual(self.inside("make", tree, self.folder / "ready", "--suite", "box")[0], 0)
            self.assertEqual(asked.call_count, 3)

    def test_a_file_that_changes(self):
        """If a file changes after it was looked at, its upload does not come, and the others do."""
        old, lat, write_files = self.folder / "old", self.room.source("lat", "1.0-1"), ADOPT.sidecars.write_files
        old.mkdir()
        for path in (lat, *self.folder.glob("lat_*.tar.*"), self.room.deb("lat"), self.room.deb("good")):
            shutil.copy(path, old)

        def late(files, folder):
            if "lat_1.0-1_amd64.deb" in files:
                with open(old / "lat_1.0-1_amd64.deb", "ab") as file:
                    file.write(b"x")
            return write_files(files, folder)

        with unittest.mock.patch.object(ADOPT.sidecars, "write_files", late):
            status, printed, told = self.inside("make", old, self.folder / "ready", "--suite", "box")
        lines = [f"adopt: box lat 1.0-1 {it}: lat_1.0-1_amd64.deb changed while it was read" for it in ("source", "amd64")]
        self.assertEqual((status, told.splitlines()), (1, [*lines, "adopt: 1 uploads, and 2 packages that can't come"]))
        names = [line.rpartition("/")[2] for line in printed.splitlines()]
        self.assertEqual(names, ["good_1.0-1_amd64.deb", "good_1.0-1_amd64.control", "good_1.0-1_box.changes", "run"])

    def program(self):
        """Skips the test if the program is not there."""
        if not os.path.exists(PROGRAM):
            raise missing(PROGRAM)

    def machine(self, place, *lines):
        """A machine with these lists, as a function that runs a command there, and answers what it prints."""
        place.apt("".join(f"{it}\n" for it in lines))
        config = place.variables["APT_CONFIG"]

        def ran(command):
            status, printed, told = place.run(f"APT_CONFIG={config}; {command}")
            self.assertEqual((status, told.replace("W: Target", "")), (0, ""), printed + told)
            return printed

        return ran

    @needs("reprepro", "gpg", "apt-get", "curl")
    def test_the_same_address(self):
        """What machines have of the old archive they have of the new one at its address, with no question asked."""
        old = self.room.reprepro(distributions=AUTOMATIC)
        (self.folder / "box.conf").write_text(self.adopt("conf", old).stdout)
        list_, _ = self.made(old, "--conf", self.folder / "box.conf")
        self.program()
        db, later = self.folder / "box.db", str(int(time.time()) + 1)
        run(PROGRAM, "init", "--db", db, "--at", later, self.folder / "box.conf")
        address = free_address()
        url = "http://%s:%d" % address
        place = snippets.Room()
        self.addCleanup(place.close)
        machine = self.machine(place, *(f"deb [trusted=yes] {url} {suite} main contrib" for suite in ("sound", "brave")))
        update = "apt-get -o APT::Update::Error-Mode=any -o APT::Architectures::=amd64 update"
        server = place.start(["python3", "-m", "http.server", "--bind", address[0], "--directory", str(old), str(address[1])], port=address[1])
        machine(update)
        place.end(server)
        with Serving(str(db), 10_000, at=later, address=address):
            sent = self.adopt("send", list_, url)
            self.assertEqual(sent.stdout.count("accepted "), 8, sent.stdout)
            # lone 0.3 and its sidecar, and the upstream of lat, which two suites have
            self.assertEqual(sent.stdout.count("again "), 2 + 1, sent.stdout)
            machine(update)
            self.assertEqual(machine("apt-cache policy").count(f" {url} sound/"), 2)
            self.assertNotIn("latin", machine("apt-cache pkgnames"))
            machine("apt-get -o APT::Architectures::=amd64 download lat=1.0-2 libx1 large && dpkg-deb -I lat_1.0-2_amd64.deb")
            differs = self.adopt("compare", old, url, status=1)
            lines = [it for it in differs.stdout.splitlines() if it.startswith(("missing", "other", "more", "release"))]
            self.assertEqual(lines, ["missing sound latin 1.0-1 amd64"])
            again = self.adopt("send", list_, url)
            self.assertEqual(set(re.findall("^[a-z]+", again.stdout, re.M)), {"again"})

    @needs("reprepro", "gpg", "apt-get")
    def test_the_switch_and_the_way_back(self):
        """The lines of the page, over a signed archive at an address: each machine goes on with the lists that it has, by whichever name it asks for a
        suite, and so it does when the address leads to the old archive again."""
        self.program()
        files = {"sound": [self.room.source("lat", "1.0-1"), self.room.deb("lat")], "brave": [self.room.deb("lone", "0.3")]}
        home, environment = self.room.gnupg(), self.room.signing()
        old = self.room.reprepro(files, SIGNED)
        run("reprepro", "-b", old, "createsymlinks")
        place = snippets.Room()
        self.addCleanup(place.close)
        os.symlink(old, f"{place.work}/old")

        def shell(text, status=0):
            ran = place.run(text)
            self.assertEqual(ran[0], status, ran)
            return ran[1]

        key = re.search("key ([0-9A-F]{40})\n", place.run("gpg --verify old/dists/sound/InRelease")[2])[1]
        shell(snippet("old key", {"runuser -u repo -- gpg": f"gpg --homedir {home}", "runuser -u archive -- ": "", "KEY": key}))
        shell(f"gpg --export {key} > ann.gpg; adopt conf old > box.conf")
        address = free_address()
        line = f"deb [signed-by={place.work}/ann.gpg] http://%s:%d {{}} main contrib" % address
        machines = [self.machine(place, line.format(it)) for it in ("sound", "stable", "brave")]
        update = "apt-get -o APT::Update::Error-Mode=any update && apt-cache dumpavail"

        def seen(tree):
            """What the machines have once the address leads to a tree."""
            server = place.start(["python3", "-m", "http.server", "--bind", address[0], "--directory", f"{place.work}/{tree}", str(address[1])], port=address[1])
            found = [machine(update) for machine in machines]
            place.end(server)
            releases = [machine("cat $(dirname $APT_CONFIG)/var/lib/apt/lists/*_InRelease") for machine in machines]
            wanted = [pathlib.Path(place.work, tree, "dists", it, "InRelease").read_text() for it in ("sound", "stable", "brave")]
            self.assertEqual(releases, wanted)
            return [re.findall("^(?:Package|Version|SHA256): .*", it, re.M) for it in found]

        def sign():
            shell(snippet("signed tree", {"archive@example.org": key}))

        before = seen("old")
        self.assertEqual([len(it) for it in before], [3, 3, 3])
        time.sleep(1)
        place.run(snippet("adopt anew"))
        sign()
        lines = shell("adopt compare old www", 1).splitlines()
        self.assertEqual(lines[:-2] + lines[-1:], ["name brave testing", "name sound stable", "3 the same, 1 says, 2 name"])
        shell("ln -s sound www/dists/stable; ln -s brave www/dists/testing")
        self.assertEqual(shell("adopt compare old www"), "says 1 sources: Section or Priority\n3 the same, 1 says\n")
        after = seen("www")
        self.assertEqual([sorted(it) for it in after], [sorted(it) for it in before])
        # What comes, and is taken out, since then
        self.room.deb("late", "2.0")
        shell(f"with_sidecars --distribution stable {self.folder}/late_2.0_amd64.deb up > files; archive put --db box.db --at $(date +%s) $(cat files)")
        shell("archive run --db box.db --at $(date +%s); archive remove --db box.db --at $(date +%s) brave lone")
        sign()
        self.assertIn("Package: late", seen("www")[1])
        lines = shell("adopt compare www old", 1).splitlines()
        self.assertEqual([it for it in lines if it.startswith(("missing", "more"))], ["more brave lone 0.3 amd64", "missing sound late 2.0 amd64"])
        self.assertEqual([it.split()[:3] for it in lines if it.startswith("release")], [["release", it, "Date:"] for it in ("brave", "sound")])
        time.sleep(1)
        pool = f"{place.work}/www/pool/main/l/late/late_2.0_amd64.deb"
        for words in (["includedeb", "sound", pool], ["remove", "brave", "lone"], ["export"]):
            run("reprepro", "-s", "-b", old, *words, env=environment)
        self.assertEqual(shell("adopt compare www old"), "says 1 sources: Section or Priority\n3 the same, 1 says\n")
        self.assertIn("Package: late", seen("old")[1])

    def taken(self, old, conf, list_, wanted, *words):
        """Has an archive take the uploads of a list, later than the tree was made, and compares what both show."""
        self.program()
        (self.folder / "box.conf").write_text(conf)
        db, at = self.folder / "box.db", ("--at", str(int(time.time()) + 1))
        run(PROGRAM, "init", "--db", db, *at, self.folder / "box.conf")
        report = run(PROGRAM, "batch", "--db", db, *at, list_).stdout
        self.assertNotIn("refused", report)
        run(PROGRAM, "export", "--db", db, self.folder / "www")
        differs = self.adopt("compare", old, self.folder / "www", *words, status=1 if wanted else 0)
        lines = [line for line in differs.stdout.splitlines()[:-1] if not line.startswith("says ")]
        self.assertEqual(lines, wanted, differs.stdout)
        again = run(PROGRAM, "batch", "--db", db, *at, list_).stdout
        self.assertEqual(set(re.findall("^[a-z]+", again, re.M)), {"again"})


    # ---- what a Release says

    def released(self, tree, name="box", index="", **values):
        """A suite in a tree, whose Release has these fields beside its lists."""
        folder = self.folder / tree / "dists" / name / "main/binary-amd64"
        folder.mkdir(parents=True, exist_ok=True)
        (folder / "Packages").write_text(index)
        values = {"Codename": name, "Date": DATE, "Architectures": "amd64", "Components": "main", **values}
        lists = f"SHA256:\n {hashlib.sha256(index.encode()).hexdigest()} {len(index)} main/binary-amd64/Packages\n"
        text = "".join(f"{field}: {value}\n" for field, value in values.items() if value)
        (folder.parent.parent / "Release").write_text(text + lists)
        return self.folder / tree

    def test_the_suite_in_a_configuration(self):
        """It is that of the Release, also if the Codename is the same, but for a name that no archive takes."""
        end = "Architectures: amd64\nComponents: main\n"
        for suite, words, codename, told in (
            ("box", (), "box", ""),
            ("stable", (), "box", ""),
            ("box", ("--suite", "box=lab"), "lab", ""),
            (None, (), "box", ""),
            ("stable/updates", (), "box", "adopt: box: its Release will have no Suite: stable/updates\n"),
            ("a+b", (), "box", "adopt: box: its Release will have no Suite: a+b\n"),
            ("s" * 61, (), "box", f"adopt: box: its Release will have no Suite: {'s' * 61}\n"),
        ):
            with self.subTest(f"{suite} {codename}"):
                old = self.released("old", Suite=suite)
                field = f"Suite: {suite}\n" if suite and not told else ""
                self.assertEqual(self.inside("conf", old, *words), (0, f"Codename: {codename}\n{field}{end}", told))

    def test_releases_that_differ(self):
        """Each field by which machines go has a line. The status is 1 if apt refuses the change, or if pins go by the field."""
        values = {"Suite": "stable", "Origin": "Example", "Label": "Ours", "Version": "3", "NotAutomatic": "yes", "ButAutomaticUpgrades": "yes"}
        old = self.released("old", **values)
        self.assertEqual(self.inside("compare", old, self.released("new", **values)), (0, "0 the same\n", ""))
        rows = [
            ({"Suite": None}, "Suite: stable in OLD, none in NEW", 1),
            ({"Suite": "box"}, "Suite: stable in OLD, box in NEW", 1),
            ({"Codename": "lab"}, "Codename: box in OLD, lab in NEW", 1),
            ({"Codename": None}, "Codename: box in OLD, none in NEW", 1),
            ({"Origin": "Exempel"}, "Origin: Example in OLD, Exempel in NEW", 1),
            ({"Label": None}, "Label: Ours in OLD, none in NEW", 1),
            ({"NotAutomatic": None}, "NotAutomatic: yes in OLD, none in NEW", 1),
            ({"ButAutomaticUpgrades": "no"}, "ButAutomaticUpgrades: yes in OLD, none in NEW", 1),
            ({"Version": None}, "Version: 3 in OLD, none in NEW", 0),
            ({"Architectures": "arm64 amd64"}, "Architectures: amd64 in OLD, amd64 arm64 in NEW", 0),
            ({"Components": "main contrib"}, "Components: main in OLD, contrib main in NEW", 0),
            ({"Architectures": "source all amd64", "Components": "updates/main", "Description": "x", "Acquire-By-Hash": "yes"}, None, 0),
        ]
        values["Date"] = LATER
        for changes, line, status in rows:
            with self.subTest(changes):
                printed = f"release box {line}\n0 the same, 1 release\n" if line else "0 the same\n"
                self.assertEqual(self.inside("compare", old, self.released("new", **{**values, **changes})), (status, printed, ""))
        # A suite that is renamed has another Codename, and nothing else.
        new = self.released("new", "lab", **{**values, "Date": DATE})
        self.assertEqual(self.inside("compare", old, new, "--suite", "box=lab"), (0, "0 the same\n", ""))
        self.released("new", "lab", **{**values, "Suite": None, "Label": "Theirs"})
        lines = "release lab Suite: stable in OLD, none in NEW\nrelease lab Label: Ours in OLD, Theirs in NEW\n0 the same, 2 release\n"
        self.assertEqual(self.inside("compare", old, new, "--suite", "box=lab"), (1, lines, ""))
        # What a Release says can't write a line of its own, and a folder without a Release has nothing to compare.
        self.released("new", **{**values, "Label": "Ours\n missing box"})
        self.assertEqual(self.inside("compare", old, new)[1], "release box Label: Ours in OLD, Ours?missing box in NEW\n0 the same, 1 release\n")
        shutil.rmtree(old)
        old.mkdir()
        (old / "Packages").touch()
        self.assertEqual(self.inside("compare", old, new, "--suite", "box"), (0, "0 the same\n", ""))

    def test_a_date_that_is_not_later(self):
        """It has a line, and the status is 1. Releases that are the same have none, and neither has one to which there is no older Date."""
        for first, second, is_named in (
            (DATE, DATE, False),
            (DATE, LATER, False),
            (LATER, DATE, True),
            (DATE, "Sat, 2 Jul 2016 05:00:00 +0000", True),
            ("Sat, 02 Jul 2016 05:00:00 +0200", "Sat, 02 Jul 2016 03:00:01 GMT", False),
            (DATE, "Sat, 02 Jul 2016 05:00:01 +0200", True),
            (DATE, "Sun, 02 Jul 2017 05:00:00 UTC", False),
            (DATE, None, True),
            (DATE, "soon", True),
            (DATE, "Sat, 02 Jul 99999999999999 05:00:00 UTC", True),
            (None, DATE, False),
            ("soon", DATE, False),
            (None, None, False),
        ):
            with self.subTest(f"{first} {second}"):
                old, new = self.released("old", Date=first), self.released("new", Date=second)
                line = f"release box Date: {first} in OLD, {second or 'none'} in NEW\n0 the same, 1 release\n"
                self.assertEqual(self.inside("compare", old, new), (1, line, "") if is_named else (0, "0 the same\n", ""))
        lines = f"release box Label: none in OLD, Ours in NEW\nrelease box Date: {DATE} in OLD, {DATE} in NEW\n0 the same, 2 release\n"
        self.assertEqual(self.inside("compare", self.released("old"), self.released("new", Label="Ours")), (1, lines, ""))

    def test_other_names_of_a_suite(self):
        """`conf` says by which other names machines may ask for a suite, and `compare` which of them the new tree lacks."""
        old, new = self.released("old", Suite="stable"), self.released("new", Suite="stable")
        said, named = "adopt: box: machines may name it stable, too: a tree needs a link of that name\n", "name box stable\n0 the same, 1 name\n"

        def looked(told, status, printed):
            with served(old) as url, served(new) as other:
                for tree, words in ((old, ()), (url, ("--suite", "box"))):
                    self.assertEqual(self.inside("conf", tree, *words)[2], told)
                    for it in (new, other):
                        self.assertEqual(self.inside("compare", tree, it, *words), (status, printed, ""))

        looked("", 0, "0 the same\n")
        (old / "dists/stable").symlink_to("box")
        looked(said, 1, named)
        # Whoever renames a suite gives each machine another line.
        self.released("new", "lab", Suite="stable")
        self.assertEqual(self.inside("compare", old, new, "--suite", "box=lab"), (0, "0 the same\n", ""))
        self.assertEqual(self.inside("conf", old, "--suite", "box=lab")[2], "")
        (new / "dists/stable").symlink_to("box")
        looked(said, 0, "0 the same\n")
        # An export has each suite as a link to a folder of a state, and the other names as links to that link.
        (old / "dists/box").rename(old / "dists/.box.0")
        (old / "dists/box").symlink_to(".box.0")
        looked(said, 0, "0 the same\n")
        self.assertEqual(re.findall("^Codename: .*", self.inside("conf", old)[1], re.M), ["Codename: box"])
        # Another suite may have the name that the Release of this one has.
        (old / "dists/stable").unlink()
        (new / "dists/stable").unlink()
        self.released("old", "stable")
        with served(old) as url:
            self.assertEqual(self.inside("conf", url, "--suite", "box")[2], "")

    @needs("apt-get", "apt-cache")
    def test_apt_and_a_date_that_is_not_later(self):
        """The real apt says nothing, and keeps the indices that it has, if the Date is earlier."""
        index = "Package: {}\nVersion: 1.0\nArchitecture: amd64\nFilename: pool/x.deb\nSize: 1\nSHA256: " + "0" * 64 + "\n"
        place = snippets.Room()
        self.addCleanup(place.close)
        for date, wanted in ((LATER, "two\n"), (DATE.replace("05:00", "04:59"), "one\n")):
            old = self.released("old", index=index.format("one"))
            with served(old) as url:
                place.apt(f"deb [trusted=yes] {url} box main\n")
                self.assertEqual(place.run("apt-get update")[0], 0)
                release = self.released("old", index=index.format("two"), Date=date) / "dists/box/Release"
                os.utime(release, (release.stat().st_mtime + 2,) * 2)  # its server says that it is a newer file
                self.assertEqual(place.run("apt-get update > update && apt-cache pkgnames"), (0, wanted, ""))

    @needs("apt-get", "apt-cache")
    def test_apt_and_a_release_that_differs(self):
        """The real apt refuses a change of what makes the status 1, but for Suite, by which its pins go. It takes each other change."""
        values = {"Suite": "stable", "Origin": "Example", "Label": "Ours", "Version": "3", "NotAutomatic": "yes", "ButAutomaticUpgrades": "yes"}
        place = snippets.Room()
        self.addCleanup(place.close)
        for field in (*ADOPT.NOTICED, *ADOPT.RARE):
            with self.subTest(field):
                place.apt(f"deb [trusted=yes] file:{self.released('tree', **values)} box main\n")
                self.assertEqual(place.run("apt-get update")[0], 0)
                self.released("tree", **{**values, field: None})
                wanted = 100 if field in ADOPT.NOTICED and field != "Suite" else 0
                self.assertEqual(place.run("apt-get update")[0], wanted)
                if wanted:
                    self.assertEqual(place.run("apt-get --allow-releaseinfo-change update")[0], 0)

    @needs("apt-get", "apt-cache")
    def test_a_pin_by_the_suite(self):
        """A pin of machines goes on to hold, if the Suite of the old archive is the Codename, too."""
        old, new = self.on_server("lone"), self.folder / "www"
        with open(old / "dists/box/Release", "a", encoding="utf-8") as file:
            file.write("Suite: box\n")
        self.taken(old, self.adopt("conf", old).stdout, self.made(old, status=0)[0], [])
        place = snippets.Room()
        self.addCleanup(place.close)
        place.apt(f"deb [trusted=yes] file:{new} box main\n")
        base = pathlib.Path(place.variables["APT_CONFIG"]).parent
        (base / "etc/apt/preferences.d/pin").write_text("Package: *\nPin: release a=box\nPin-Priority: 900\n")
        release = (new / "dists/box/Release").read_text()
        for text, wanted, status in ((release, "900", 0), (release.replace("Suite: box\n", ""), "500", 1)):
            (new / "dists/box/Release").write_text(text)
            self.assertEqual(self.inside("compare", old, new)[0], status)
            status, printed, told = place.run("apt-get update > update && apt-cache policy")
            self.assertEqual((status, told), (0, ""))
            self.assertEqual(re.findall(rf"^ *(-?\d+) file:{new} box/main amd64 Packages$", printed, re.M), [wanted], printed)

    @needs("nginx", "openssl", "curl", "apt-get")
    def test_an_address_with_a_path(self):
        """The text for nginx with what the page says of such an address, by https and by http."""
        place = snippets.Room()
        self.addCleanup(place.close)
        tree = pathlib.Path(place.work, "www")
        (tree / "pool/l").mkdir(parents=True)
        shutil.copy(self.room.deb("lone"), tree / "pool/l/lone_1.0-1_amd64.deb")
        self.released(tree, index=run("dpkg-scanpackages", "pool", cwd=tree).stdout)
        for path in ("uploads.html", "index.html", ".boqitsel/files", "dists/.box.new/Release"):
            place.write(f"work/www/{path}", "it is there\n")
        place.write("uploaders", "ann:{PLAIN}a secret\n")
        page = snippets.pages()
        for word in ("mkdir web && ln -s ../www web/debian", "root /srv/box/web;", "location /debian/pool/", "location = /debian/uploads.html", "listen 80;"):
            self.assertIn(f"`{word}`", page)
        self.assertEqual(place.run("mkdir web && ln -s ../www web/debian")[0], 0)
        moved = {"root /srv/box/www;": f"root {place.work}/web;", "location /pool/": "location /debian/pool/"}
        moved["location = /uploads.html"] = "location = /debian/uploads.html"
        certificate, key = place.certificate()
        place.variables["CURL_CA_BUNDLE"] = certificate
        login = f"auth_basic \"uploads\";\n        auth_basic_user_file {place.folder}/uploaders;"
        plain = {f"    ssl_certificate {certificate};\n    ssl_certificate_key {key};\n": "", " ssl;": ";", login: "return 404;"}
        for scheme, more, closed in (("https", {}, "401"), ("http", plain, "404")):
            port = free_port()
            place.start(["nginx", "-c", place.nginx(snippet("tree by nginx"), port, {**moved, **more})], port=port)
            url = f"{scheme}://localhost:{port}/debian"
            for path, wanted in (
                ("", "200"), ("dists/box/Release", "200"), ("pool/l/lone_1.0-1_amd64.deb", "200"), ("dists/.box.new/Release", "404"),
                (".boqitsel/files", "404"), ("uploads.html", closed), ("../pool/l/lone_1.0-1_amd64.deb", "404")):
                status, printed, told = place.run(f"curl -sS --path-as-is -o body -D head -w '%{{http_code}}' {url}/{path}")
                self.assertEqual((status, printed, told), (0, wanted, ""), path)
                head = place.read("work/head").lower()
                self.assertIn("x-content-type-options: nosniff\n", head)
                self.assertEqual("content-disposition: attachment\n" in head, path.startswith("pool"), path)
            place.apt(f"deb [trusted=yes] {url} box main\n")
            status, _, told = place.run("rm -f *.deb; apt-get update && apt-get download lone && dpkg-deb -I lone_1.0-1_amd64.deb")
            self.assertEqual((status, told), (0, ""))

    @needs("nginx", "openssl", "curl")
    def test_an_address_with_a_path_and_a_suite_with_another_name_by_the_proxy(self):
        self.program()
        place = snippets.Room()
        self.addCleanup(place.close)
        (self.folder / "box.conf").write_text(BOX)
        db = str(self.folder / "box.db")
        run(PROGRAM, "init", "--db", db, "--at", MOMENT, self.folder / "box.conf")
        place.write("uploaders", "ann:{PLAIN}a secret\n")
        place.write("work/signed/dists/box/InRelease", "it is signed\n")
        lines, page = ["rewrite ^/debian/(.*)$ /$1;", "rewrite ^/dists/stable/(.*)$ /dists/box/$1;"], snippets.pages()
        for line in lines:
            self.assertIn(f"`{line}`", page)
        text = snippet("nginx", {"    location /pool/ {\n": "".join(f"    {it}\n" for it in [*lines, "location /pool/ {"])})
        certificate, _ = place.certificate()
        place.variables["CURL_CA_BUNDLE"] = certificate
        with Serving(db, 100, at=MOMENT) as archive:
            archive.connected().close()
            port = free_port()
            place.start(["nginx", "-c", place.proxy(text, port, archive.address[1])], port=port)
            for top in ("", "debian/"):
                for suite in ("box", "stable"):
                    url = f"https://localhost:{port}/{top}dists/{suite}"
                    self.assertEqual(place.run(f"curl -sSf {url}/InRelease"), (0, "it is signed\n", ""))
                    self.assertEqual(place.run(f"curl -sSf {url}/main/binary-amd64/Packages"), (0, "", ""))
                    self.assertIn("\nCodename: box\n", f"\n{place.run(f'curl -sSf {url}/Release')[1]}")

    def test_sources_of_which_the_place_differs(self):
        """They have one line for all suites. A source of which more differs has its own, and so has a package."""
        place = "Section: {}\nPriority: optional\n"
        index = "Package: {}\nVersion: 1.0\nDirectory: pool\nMaintainer: {}\n{}Checksums-Sha256:\n " + "0" * 64 + " 1 {}_1.0.dsc\n"
        package = "Package: lone\nVersion: 1.0\nArchitecture: amd64\n{}Filename: lone.deb\nSize: 1\nSHA256: 1\n"
        for tree, there in (("old", place), ("new", "")):
            for suite, section in (("one", "utils"), ("two", "net")):
                self.suite(self.folder / tree, suite, package.format(there.format(section)), "", bytes)
                rows = [("lat", "Ann", there), ("libx", "Ann", there.replace("Priority: optional\n", "")), ("more", f"Ann {tree}", there), ("same", "Ann", "")]
                folder = self.folder / tree / "dists" / suite / "main/source"
                folder.mkdir()
                (folder / "Sources").write_text("\n".join(index.format(name, who, it.format(section), name) for name, who, it in rows))
        lines = "".join(f"says {it} lone 1.0 amd64: Section, Priority\nsays {it} more 1.0 source: Maintainer, Section, Priority\n" for it in ("one", "two"))
        wanted = f"{lines}says 4 sources: Section or Priority\n10 the same, 8 says\n"
        self.assertEqual(self.inside("compare", self.folder / "old", self.folder / "new"), (0, wanted, ""))

    @needs("apt-ftparchive")
    def test_apt_ftparchive(self):
        """Its tree comes by a URL as from a folder, if the suites are named."""
        old = self.folder / "old"
        (old / "pool").mkdir(parents=True)
        for name, version in (("one", "1.0-1"), ("two", "2:1.0")):
            self.room.deb(name, version, file=f"old/pool/{name}.deb")
        folder = old / "dists/box/main/binary-amd64"
        folder.mkdir(parents=True)
        (folder / "Packages").write_text(run("apt-ftparchive", "packages", "pool", cwd=old).stdout)
        words = ("Codename=box", "Architectures=amd64", "Components=main", "Origin=Example")
        release = run("apt-ftparchive", *(it for word in words for it in ("-o", f"APT::FTPArchive::Release::{word}")), "release", "dists/box", cwd=old).stdout
        (old / "dists/box/Release").write_text(release)
        list_, told = self.made(old, status=0)
        self.assertEqual(told, ["adopt: 2 uploads, and 0 packages that can't come"])
        wanted = list_.read_text()
        with served(old) as url:
            self.assertEqual(self.adopt("make", url, self.folder / "ready", status=1).stderr, "adopt: give --suite: the suites of a URL can't be listed\n")
            list_, told = self.made(url, "--suite", "box", status=0)
            self.assertEqual((list_.read_text(), told), (wanted, ["adopt: 2 uploads, and 0 packages that can't come"]))
            self.assertEqual(self.adopt("conf", url, "--suite", "box=lab").stdout, "Codename: lab\nOrigin: Example\nArchitectures: amd64\nComponents: main\n")
            self.taken(url, self.adopt("conf", url, "--suite", "box").stdout, list_, [], "--suite", "box")
        self.assertEqual(self.adopt("conf", url, "--suite", "box", status=3).stdout, "")

    def test_indices_that_lie(self):
        """No file elsewhere is read, and of each package there is a line."""
        old, secret = self.folder / "old", self.folder / "secret.deb"
        old.mkdir()
        self.room.deb("good", file="old/good.deb")
        good = run("dpkg-scanpackages", ".", cwd=old).stdout.replace("./good.deb", "good.deb")
        shutil.copy(old / "good.deb", secret)
        (old / "link.deb").symlink_to(secret)
        (old / "near.deb").symlink_to("good.deb")
        os.mkfifo(old / "fifo.deb")
        [size] = re.findall("^Size: (.*)$", good, re.M)
        rows = [
            ({"Filename: good.deb": f"Filename: {secret}"}, f"{secret} is no path of a file there"),
            ({"Filename: good.deb": "Filename: ../secret.deb"}, "../secret.deb is no path of a file there"),
            ({"Filename: good.deb": "Filename: link.deb"}, "link.deb is a link to elsewhere"),
            ({"Filename: good.deb": "Filename: fifo.deb"}, "fifo.deb is no regular file"),
            ({"Filename: good.deb": f"Filename: {'n' * 300}"}, "File name too long"),
            ({f"Size: {size}": "Size: 1"}, "good.deb is not the file that the index lists"),
            ({"SHA256: ": "SHA256: 0"}, "good.deb is not the file that the index lists"),
            ({"Version: 1.0-1": "Version: 1.0-2"}, "its control file has Version 1.0-1"),
            ({"Version: 1.0-1": "Version: 1.0-1\nSource: other"}, "its control file has Source good"),
            ({"Package: good": "Package: good\x1b[2J"}, "good?[2J_1.0-1_box_999.changes is no file name"),
        ]
        for changes, wanted in rows:
            with self.subTest(wanted):
                (old / "Packages").write_text(snippets.changed(good, changes))
                ran = self.adopt("make", old, self.folder / "ready", "--suite", "box", status=1)
                self.assertEqual(ran.stdout, "")
                self.assertNotRegex(ran.stderr, "[\x00-\x09\x0b-\x1f\x7f-\x9f]")
                lines = ran.stderr.splitlines()
                said = lines[0].split(": ", 2)[2]
                self.assertEqual((said[:300], lines[1:]), (wanted[:300], ["adopt: 0 uploads, and 1 packages that can't come"]))
        for change, wanted in ((f"Size: {size}", "Size: -1"), ("Filename: good.deb", "Other: x"), ("Version: 1.0-1", "Version: a")):
            (old / "Packages").write_text(good.replace(change, wanted))
            ran = self.adopt("make", old, self.folder / "ready", "--suite", "box", status=1)
            self.assertRegex(ran.stderr, r"\Aadopt: Packages: good: .*\nadopt: 0 uploads, and 1 packages that can't come\n\Z")
        (old / "Packages").write_text(good.replace("good.deb", "near.deb"))
        self.assertEqual(len(self.made(old, "--suite", "box", status=0)[0].read_text().splitlines()), 4)
        self.assertEqual(self.adopt("make", old, old / "ready", "--suite", "box", status=1).stdout, "")
        (old / "Packages").unlink()
        (old / "Packages.gz").write_bytes(gzip.compress(bytes(1 << 28), 1))
        told = self.adopt("make", old, self.folder / "ready", "--suite", "box", status=1).stderr
        self.assertEqual(told, "adopt: Packages has more than 134217728 bytes\n")
        (old / "Packages.gz").write_bytes(b"no gzip")
        self.assertRegex(self.adopt("make", old, self.folder / "ready", "--suite", "box", status=1).stderr, r"\Aadopt: Packages.gz can't be unpacked: .*\n\Z")

    def test_a_run_after_each_hundred(self):
        """Given again, it makes the same, also if it was stopped."""
        old = self.folder / "old"
        old.mkdir()
        for number in range(101):
            self.room.deb(f"p{number}", file=f"old/p{number}.deb")
        line = [sys.executable, TOOL, "make", old, self.folder / "ready", "--suite", "box"]
        with subprocess.Popen(line, stdout=subprocess.PIPE, stderr=subprocess.PIPE) as process:
            while process.poll() is None and not any((self.folder / "ready").glob("p*")):
                time.sleep(0.01)
            process.kill()
        list_, _ = self.made(old, "--suite", "box", status=0)
        lines = list_.read_text().splitlines()
        self.assertEqual([number for number, it in enumerate(lines) if it == "run"], [300, 304])
        self.taken(old, self.adopt("conf", old, "--suite", "box").stdout, list_, [], "--suite", "box")

    @needs("reprepro")
    def test_the_page(self):
        """The lines of docs/OPERATING.md, over a tree all of which can come."""
        old = self.room.reprepro({"brave": [self.room.source("lat", "1.0-1"), self.room.deb("lat"), self.room.deb("lone", "0.3")]})
        place = snippets.Room()
        self.addCleanup(place.close)
        self.program()
        time.sleep(1)  # so that the new Date is later
        os.symlink(old, f"{place.work}/old")
        words = "--suite brave old"  # of two suites the other one has nothing
        text = snippet("adopt", {"conf old": f"conf {words}", "make old": f"make {words}", "compare old": f"compare {words}"})
        status, printed, told = place.run(text)
        self.assertEqual((status, told.splitlines()[-1]), (0, "adopt: 2 uploads, and 0 packages that can't come"), told)
        self.assertRegex(printed, r"(?s)\Anew lat_1.0-1.dsc\n.*\naccepted lone_0.3_brave.changes\n.*\nsays 1 sources: Section or Priority\n3 the same, 1 says\n\Z")

    def test_words(self):
        for words in ((), ("make",), ("make", "old"), ("conf", "old", "--suite", "a=b=c"), ("conf", "old", "--suite", "../x"), ("send", "list", "x"), ("other",)):
            self.assertEqual(self.adopt(*words, status=2).stdout, "", words)
        for word in ("3", "05", "1025", "5 MiB", ""):
            for words in (("make", "old", "ready"), ("send", "list", "http://127.0.0.1:8080")):
                status, _, told = self.inside(*words, "--most", word)
                self.assertEqual((status, told.splitlines()[-1]), (2, f"adopt {words[0]}: error: argument --most: it is no number from 4 to 1024"))
        for words in (("make", "old", "ready", "--most", "4", "--conf", "box.conf"), ("conf", "old", "--most", "5"), ("compare", "old", "new", "--most", "5")):
            self.assertEqual(self.inside(*words)[:2], (2, ""), words)
        help_ = self.adopt("--help").stdout
        self.assertIn("adopt conf OLD", help_)
        self.assertIn("MaxFileSize", help_)
        self.assertEqual(self.adopt("conf", self.folder / "none", status=1).stderr, f"adopt: there is no folder {self.folder}/none\n")

    # ---- how large a file may be

    def indexed(self, old, path, name, **values):
        """Writes the suite box of a tree, whose index has one package file."""
        prints = ADOPT.sidecars.read(name, io.BytesIO(path.read_bytes()), most=1 << 30)
        (digest, size) = prints["Checksums-Sha256"]
        more = "".join(f"{field}: {value}\n" for field, value in values.items())
        place = path.relative_to(old)
        index = f"Package: {name}\nVersion: 1.0-1\nArchitecture: amd64\nFilename: {place}\nSize: {size}\nSHA256: {digest}\nSection: utils\n{more}"
        shutil.rmtree(old / "dists", ignore_errors=True)
        self.suite(old, "box", index, "", bytes)

    def test_the_most_bytes_of_a_file(self):
        """They are 4 MiB if nothing is said, and else what --most or a configuration says, to the byte."""
        old, conf, ready = self.folder / "old", self.folder / "box.conf", self.folder / "ready"
        old.mkdir()
        for size, words, field, most in (
            (4194304, (), "", None),
            (4194305, (), "", 4194304),
            (4194304, ("--most", "4"), "", None),
            (4194305, ("--most", "4"), "", 4194304),
            (5242880, ("--most", "5"), "", None),
            (5242881, ("--most=5",), "", 5242880),
            (5242881, ("--most", "1024"), "", None),
            (4194305, ("--conf", conf), "", 4194304),
            (5242880, ("--conf", conf), "MaxFileSize: 5\n", None),
            (5242881, ("--conf", conf), "MaxFileSize: 5\n", 5242880),
            (5242881, ("--conf", conf), "MaxFileSize: 6\n", None),
        ):
            with self.subTest(f"{size} {words} {field}"):
                conf.write_text(BOX + field)
                self.indexed(old, self.room.padded("big", size, "old"), "big")
                status, printed, told = self.inside("make", old, ready, *words)
                if most:
                    line = f"adopt: box big 1.0-1 amd64: big.deb has more than {most} bytes{HINT}\nadopt: 0 uploads, and 1 packages that can't come\n"
                    self.assertEqual((status, printed, told), (1, "", line))
                else:
                    self.assertEqual((status, told), (0, "adopt: 1 uploads, and 0 packages that can't come\n"))
                    came = ready / "big_1.0-1_box/big_1.0-1_amd64.deb"
                    self.assertEqual((printed.splitlines()[0], came.read_bytes()), (f"put {came}", (old / "big.deb").read_bytes()))
                shutil.rmtree(ready)

    def test_the_most_bytes_of_a_file_without_an_index(self):
        old, conf = self.folder / "old", self.folder / "box.conf"
        old.mkdir()
        self.room.padded("big", 6 * MEBIBYTE + 1, "old")
        self.room.deb("small", file="old/small.deb")
        line = f"adopt: big.deb: big.deb has more than {{}} bytes{HINT}\nadopt: 1 uploads, and 1 packages that can't come\n"
        for words, most in (((), 4194304), (("--most", "6"), 6291456)):
            self.assertEqual(self.inside("make", old, self.folder / "ready", "--suite", "box", *words)[2], line.format(most))
        conf.write_text(self.adopt("conf", old, "--suite", "box").stdout)
        self.assertEqual(conf.read_text(), "Codename: box\nArchitectures: amd64\nComponents: main\nMaxFileSize: 7\n")
        list_, _ = self.made(old, "--suite", "box", "--conf", conf, status=0)
        self.assertEqual(self.names(list_, ".deb"), ["big_1.0-1_amd64.deb", "small_1.0-1_amd64.deb"])
        self.taken(old, conf.read_text(), list_, [], "--suite", "box")

    def test_a_source_with_a_large_file(self):
        """It comes as a whole, or not at all: with an index and without."""
        old, ready = self.folder / "old", self.folder / "ready"
        old.mkdir()
        self.room.native("lat", 5 * MEBIBYTE, "old")
        for _ in range(2):
            status, printed, told = self.inside("make", old, ready, "--suite", "box")
            self.assertEqual((status, printed), (1, ""))
            self.assertEqual(told.splitlines()[0], f"adopt: box lat 1.0 source: lat_1.0.tar.gz has more than 4194304 bytes{HINT}")
            status, printed, _ = self.inside("make", old, ready, "--suite", "box", "--most", "5")
            names = [it.rpartition("/")[2] for it in printed.splitlines()]
            self.assertEqual((status, names), (0, ["lat_1.0.dsc", "lat_1.0.tar.gz", "lat_1.0_box.changes", "run"]))
            self.assertEqual((ready / "lat_1.0_box/lat_1.0.tar.gz").stat().st_size, 5 * MEBIBYTE)
            (old / "Sources").write_text(run("dpkg-scansources", ".", cwd=old).stdout)

    def listing(self, name, *sizes, source=()):
        """A suite whose index lists packages of these sizes, and a source of files of these sizes. None of them is there."""
        paragraph = "Package: p{0}\nVersion: 1.0\nArchitecture: amd64\nMaintainer: Ann <ann@example.org>\nFilename: pool/p{0}.deb\nSize: {1}\nSHA256: {2}\n"
        index = "\n".join(paragraph.format(number, size, "0" * 64) for number, size in enumerate(sizes))
        self.suite(self.folder / "old", name, index, "", bytes)
        if source:
            files = "".join(f" {'0' * 64} {size} lat_1.0{ending}\n" for ending, size in zip((".dsc", ".tar.gz", ".tar.xz"), source))
            folder = self.folder / "old/dists" / name / "main/source"
            folder.mkdir()
            (folder / "Sources").write_text(f"Package: lat\nVersion: 1.0\nDirectory: pool\nChecksums-Sha256:\n{files}")

    def test_the_size_in_a_configuration(self):
        """It is the least number of MiB that lets in all that may come, and stands in the first paragraph."""
        for one, two, source, wanted in (
            ([1, 4194304], [1], (), ""),
            ([4194305, 1], [1], (), "MaxFileSize: 5\n"),
            ([1], [5242880], (), "MaxFileSize: 5\n"),
            ([5242880], [5242881], (), "MaxFileSize: 6\n"),
            ([5242881], [5242880], (), "MaxFileSize: 6\n"),
            ([1], [1], (1000, 1, 209715200), "MaxFileSize: 200\n"),
            ([1073741824], [1], (), "MaxFileSize: 1024\n"),
            ([1073741825], [1], (), ""),
            ([1073741825, 4194305], [10**15 - 1], (1000, 1 << 29, 1 << 31), "MaxFileSize: 5\n"),
        ):
            with self.subTest(f"{one} {two} {source}"):
                self.listing("one", *one)
                self.listing("two", *two, source=source)
                paragraph = "Codename: {}\nArchitectures: amd64{}\nComponents: main\n"
                printed = f"{paragraph.format('one', '')}{wanted}\n{paragraph.format('two', ' source' if source else '')}"
                self.assertEqual(self.inside("conf", self.folder / "old"), (0, printed, ""))
                shutil.rmtree(self.folder / "old")

    def test_what_is_larger_than_any_archive_takes(self):
        """No field lets it in, so none is named."""
        self.listing("box", 1073741825, 1073741824)
        for words in ((), ("--most", "4"), ("--most", "1024")):
            told = self.inside("make", self.folder / "old", self.folder / "ready", *words)[2].splitlines()
            second = "pool/p1.deb is not there" if "1024" in words else f"p1.deb has more than 4194304 bytes{HINT}"
            self.assertEqual(told[:2], ["adopt: box p0 1.0 amd64: p0.deb has more than 1073741824 bytes", f"adopt: box p1 1.0 amd64: {second}"])

    def test_configurations(self):
        """What of a MaxFileSize is read, and that nothing is made if no archive takes it."""
        conf, ready = self.folder / "box.conf", self.folder / "ready"
        lab = BOX.replace("box", "lab")
        number, place = "MaxFileSize: it is no number from 4 to 1024", "MaxFileSize may stand once, in the first paragraph"
        bad = ["3", "0", "05", "1025", "-5", "+5", "5.0", "5 MiB", "5M", "5 6", "", "5\n 6", "\n 5", "5\r", "5\u00a0", "\u0665", "4294967301"]
        for text, wanted in (
            (BOX, 4),
            ("", 4),
            (f"{BOX}MaxFileSize: 4\n", 4),
            (f"{BOX}MaxFileSize: 5\n", 5),
            (f"{BOX}MaxFileSize: 1024", 1024),
            (f"{BOX}maxfilesize:5 \t\n\n{lab}", 5),
            (f"\n\nMAXFILESIZE: 5\n{BOX}", 5),
            (f"{BOX}MaxFileSizes: 3\nUploaders:\n MaxFileSize: 3\n", 4),
            *((f"{BOX}MaxFileSize: {it}\n", number) for it in bad),
            (f"{BOX}MaxFileSize: 5\nmaxfilesize: 5\n", place),
            (f"{BOX}\n{lab}MaxFileSize: 5\n", place),
            (f"{BOX}MaxFileSize: 5\n\n{lab}MaxFileSize: 5\n", place),
        ):
            with self.subTest(text):
                conf.write_bytes(text.encode())
                if isinstance(wanted, int):
                    self.assertEqual(ADOPT.most_said(conf), wanted * MEBIBYTE)
                    continue
                with self.assertRaises(ADOPT.Wrong) as caught:
                    ADOPT.most_said(conf)
                self.assertEqual(str(caught.exception), f"{conf}: {wanted}")
        self.listing("box", 1)
        words = ("make", self.folder / "old", ready, "--conf")
        conf.write_text(f"{BOX}MaxFileSize: 3\n")
        self.assertEqual(self.inside(*words, conf), (1, "", f"adopt: {conf}: {number}\n"))
        conf.write_bytes(b"x" * 1048577)
        self.assertEqual(self.inside(*words, conf), (1, "", f"adopt: {conf} has more than 1048576 bytes\n"))
        self.assertRegex(self.inside(*words, self.folder / "none")[2], r"\Aadopt: .*No such file or directory: .*\n\Z")
        self.assertFalse(ready.exists())

    def test_the_memory_that_a_large_file_takes(self):
        """It is that of a small one, from a folder and from a URL, where it may be larger than other replies."""
        old, size, asked = self.folder / "old", 96 * MEBIBYTE, []
        (old / "pool").mkdir(parents=True)
        deb = self.room.padded("big", size, "old/pool")
        self.indexed(old, deb, "big")
        ready, limited = self.folder / "ready", ["sh", "-c", 'ulimit -d 81920 && exec "$@"', "sh"]
        with served(old, asked) as url:
            for place in (old, url):
                ran = run(*limited, sys.executable, TOOL, "make", place, ready, "--suite", "box", "--most", "96")
                self.assertEqual(ran.stderr, "adopt: 1 uploads, and 0 packages that can't come\n")
                self.assertEqual(run("cmp", deb, ready / "big_1.0-1_box/big_1.0-1_amd64.deb").stdout, "")
                self.assertEqual([it.name for it in ready.iterdir()], ["big_1.0-1_box"])
                shutil.rmtree(ready)
            self.assertIn("/pool/big.deb", asked)
            asked.clear()
            told = self.inside("make", url, ready, "--suite", "box", "--most", "95")[2]
            self.assertEqual(told.splitlines()[0], f"adopt: box big 1.0-1 amd64: big.deb has more than 99614720 bytes{HINT}")
            self.assertNotIn("/pool/big.deb", asked)

    # ---- servers

    def on_server(self, *names):
        """A tree with packages of these names, in which nothing is odd."""
        old = self.folder / "old"
        (old / "pool").mkdir(parents=True)
        for name in names:
            self.room.deb(name, file=f"old/pool/{name}.deb")
        self.suite(old, "box", run("dpkg-scanpackages", "pool", cwd=old).stdout, "", bytes)
        return old

    def test_a_server_that_never_ends(self):
        """No more of a file comes than its index says, but for a piece, and no more of an index than may be. The others come."""
        old, sent = self.on_server("good", "long"), []

        def endless(handler):
            handler.send_response(200)
            handler.end_headers()
            while True:
                handler.wfile.write(bytes(1 << 16))
                sent.append(1 << 16)

        with served(old, odd={"/pool/long.deb": endless}) as url:
            status, printed, told = self.inside("make", url, self.folder / "ready", "--suite", "box")
            lines = ["adopt: box long 1.0-1 amd64: pool/long.deb is not the file that the index lists", "adopt: 1 uploads, and 1 packages that can't come"]
            self.assertEqual((status, told.splitlines(), printed.count("good_1.0-1_amd64.deb\n"), printed.count("put ")), (1, lines, 1, 3))
            self.assertLess(sum(sent), 32 * MEBIBYTE)
        with served(old, odd={"/dists/box/main/binary-amd64/Packages": endless}) as url:
            ended = 1, "", "adopt: dists/box/main/binary-amd64/Packages has more than 134217728 bytes\n"
            self.assertEqual(self.inside("make", url, self.folder / "ready", "--suite", "box"), ended)

    def test_a_server_that_breaks_off(self):
        """It is asked twice again, and nothing of what came before stays in the file."""
        old = self.on_server("good")
        body, count = (old / "pool/good.deb").read_bytes(), 0

        def cut(handler):
            nonlocal count
            count += 1
            handler.send_response(200)
            handler.send_header("Content-Length", str(len(body)))
            handler.end_headers()
            handler.wfile.write(b"x" * (len(body) - count) if count % 3 else body)

        with served(old, odd={"/pool/good.deb": cut}) as url:
            self.assertEqual(self.inside("make", url, self.folder / "ready", "--suite", "box")[0], 0)
            self.assertEqual((count, (self.folder / "ready/good_1.0-1_box/good_1.0-1_amd64.deb").read_bytes()), (3, body))
            ended = self.assertRaisesRegex(ADOPT.upload.Unreached, "pool/good.deb: the reply was cut short$")
            room = tempfile.TemporaryDirectory(dir=self.folder)
            with unittest.mock.patch.object(ADOPT, "TRIES", 2), ended:
                ADOPT.Url(url, MEBIBYTE).kept(ADOPT.File("pool/good.deb", len(body), {}), room)
            room.cleanup()
        for status, wanted in ((404, "is not there"), (403, "is not there"), (500, "is answered by 500 Internal Server Error")):
            with served(old, odd={"/pool/good.deb": lambda handler, status=status: handler.send_error(status)}) as url:
                told = self.inside("make", url, self.folder / "ready", "--suite", "box")[2]
                self.assertEqual(told.splitlines()[0], f"adopt: box good 1.0-1 amd64: pool/good.deb {wanted}")

    def test_a_slow_server(self):
        """A reply may take a second more for each MiB of it that has come, and may have more bytes than others."""
        body = b"HTTP/1.1 200 OK\r\nContent-Length: 16777216\r\n\r\n" + bytes(16 * MEBIBYTE)
        for speed, is_soon_enough in ((1.1, True), (0.8, False)):
            slow = Slow(body, speed * MEBIBYTE)
            with unittest.mock.patch.multiple(ADOPT.upload, time=slow, REPLY_SECONDS=2, REPLY_BYTES=MEBIBYTE):
                reply = ADOPT.Reply("GET /x", slow)
                reply.begin()
                if is_soon_enough:
                    self.assertEqual(sum(map(len, reply.pieces())), 16 * MEBIBYTE)
                else:
                    with self.assertRaisesRegex(ADOPT.upload.Unreached, "^the reply to GET /x took more than 2 seconds$"):
                        list(reply.pieces())
                    self.assertAlmostEqual(slow.now, 10, delta=1)

    def test_the_room_of_what_is_fetched(self):
        """A file that was fetched is gone once it is written, or can't come."""
        old, folder = self.on_server("p1", "p2", "p3"), self.folder / "ready"
        index = old / "dists/box/main/binary-amd64/Packages"
        index.write_text(re.sub("(Package: p1\n(?:.+\n)*SHA256: ).", r"\1x", index.read_text()))
        counts, write_files = [], ADOPT.sidecars.write_files

        def counted(files, *words):
            counts.append(len([it for it in folder.glob(".adopt-*/*/*") if it.is_file()]))
            return write_files(files, *words)

        with served(old) as url, unittest.mock.patch.object(ADOPT.sidecars, "write_files", counted), contextlib.redirect_stdout(None):
            with contextlib.redirect_stderr(None), unittest.mock.patch.object(ADOPT, "AHEAD", 1):
                tree = ADOPT.Url(url, MEBIBYTE)
                maker = ADOPT.Maker(tree, folder, None)
                maker.make(ADOPT.View(tree, "box", "box"))
        # p1 is gone, and of the others one is looked at ahead
        self.assertEqual((maker.count, maker.left), (2, 1))
        self.assertLessEqual(max(counts), 2)
        self.assertEqual(counts[-1], 1)
        self.assertEqual(sorted(it.name for it in folder.iterdir()), ["p2_1.0-1_box", "p3_1.0-1_box"])

    # ---- send

    def test_what_is_sent(self):
        """A file of any size goes to the archive, which refuses it itself. What is printed then names the field."""
        path, list_ = self.folder / "big_1.0-1_amd64.deb", self.folder / "list"
        with open(path, "wb") as file:
            file.truncate(6 * MEBIBYTE)
        list_.write_text(f"put {path}\nrun\n")
        archive, place = Archive(), ("PUT", f"/incoming/{path.name}")
        with Server(archive) as server:
            threading.Thread(target=server.serve_forever, kwargs={"poll_interval": 0.05}, daemon=True).start()
            url = f"http://127.0.0.1:{server.server_port}"
            self.assertEqual(self.inside("send", list_, url), (0, f"new {path.name}\n", ""))
            self.assertEqual([len(it) for it in archive.bodies[path.name]], [6 * MEBIBYTE])
            self.assertEqual(self.inside("send", list_, url, "--most", "6"), (0, f"again {path.name}\n", ""))
            for status, text, line, reason in (
                (
                    413, "413 Payload Too Large\n", f"413 {TOO_LARGE}",
                    "The file is larger than the archive takes, 4 MiB or what MaxFileSize says in its configuration, or than the proxy takes."),
                (422, "Q2\n", "Q2", "The file is larger than the archive takes: 4 MiB, or what MaxFileSize says in its configuration."),
            ):
                archive.faults[place] = [(status, text)]
                self.assertEqual(self.inside("send", list_, url), (1, f"refused {line} {path.name}\n{reason}\n", ""))
            archive.requests.clear()
            refused = 1, "", f"adopt: {path.name} has more than 5242880 bytes{HINT}\n"
            self.assertEqual(self.inside("send", list_, url, "--most", "5"), refused)
            self.assertEqual(archive.requests, [])
            # a server that says its configuration
            asks = "GET", "/configuration"
            for text, told in (
                ("Codename: box\nMaxFileSize: 5\n", refused[2]),
                ("Codename: box\nmaxfilesize:\n 5\n\nCodename: lab\n", "adopt: the configuration of {url}: MaxFileSize: it is no number from 4 to 1024\n"),
                ("Codename: box\n", f"adopt: {path.name} has more than 4194304 bytes{HINT}\n"),
            ):
                archive.faults[asks] = [(200, text)]
                self.assertEqual(self.inside("send", list_, url), (1, "", told.format(url=url)))
            archive.faults[asks] = [(200, "Codename: box\nMaxFileSize: 6\n")]
            self.assertEqual(self.inside("send", list_, url), (0, f"again {path.name}\n", ""))
            archive.requests.clear()
            with open(path, "wb") as file:
                file.truncate((1 << 30) + 1)
            self.assertEqual(self.inside("send", list_, url), (1, "", f"adopt: {path.name} has more than 1073741824 bytes\n"))
            self.assertEqual(archive.requests, [asks])
            server.shutdown()

    # ---- progress

    def shown(self, *words, is_shared=False):
        """The status and the outputs of a line with slow packages if standard error is a terminal, to which standard output may come, too."""
        slow = self.folder / "slow"
        slow.mkdir(exist_ok=True)
        (slow / "dpkg-deb").write_text(f'#!/bin/sh\nsleep 0.15\nexec {path_of("dpkg-deb")} "$@"\n')
        (slow / "dpkg-deb").chmod(0o755)
        own, other = pty.openpty()
        line = [sys.executable, TOOL, *map(str, words)]
        streams = {"stdin": subprocess.DEVNULL, "stdout": other if is_shared else subprocess.PIPE, "stderr": other}
        with subprocess.Popen(line, text=True, env={**ENVIRONMENT, "PATH": f"{slow}:{ENVIRONMENT['PATH']}"}, **streams) as process:
            os.close(other)
            told = rest_of(own)
            printed, _ = process.communicate(timeout=600)
        os.close(own)
        return process.returncode, printed, told

    def test_progress(self):
        """How many packages are done, in one line of a terminal that is not there in the end. Other lines stand by themselves."""
        old = self.on_server("p1", "p2", "p3")
        (old / "pool/p2.deb").write_bytes(b"x")
        last = [
            "adopt: box p2 1.0-1 amd64: pool/p2.deb is not the file that the index lists", "adopt: 2 uploads, and 1 packages that can't come", ""]
        known = [f"make: {share}%, {done} of 3 packages" for share, done in ((33, 1), (66, 2), (100, 3))]
        status, printed, told = self.shown("make", old, self.folder / "ready")
        self.assertEqual((status, len(printed.splitlines()), rows_of(told)), (1, 7, last))
        shown = [it for it in lines_of(told) if it in known]
        self.assertEqual(shown, sorted(shown, key=known.index))
        self.assertEqual(shown[:1], known[:1])
        status, _, told = self.shown("make", old, self.folder / "ready", is_shared=True)
        self.assertEqual((status, rows_of(told)[-2:], [it for it in rows_of(told) if it.startswith("adopt")]), (1, last[-2:], last[:2]))
        self.assertEqual([it for it in rows_of(told) if not it.startswith("adopt")], [*printed.splitlines(), ""])
        self.assertIn(known[0], lines_of(told))

    def test_progress_of_a_folder(self):
        """What has no index is read first, and not again."""
        old = self.folder / "old"
        old.mkdir()
        self.room.deb("p1", file="old/p1.deb")
        status, printed, told = self.shown("make", old, self.folder / "ready", "--suite", "box")
        self.assertEqual((status, len(printed.splitlines()), rows_of(told)), (0, 4, ["adopt: 1 uploads, and 0 packages that can't come", ""]))
        self.assertEqual([it for it in lines_of(told) if it.startswith("make")], ["make: 100%, 1 of 1 files"])

    def test_progress_of_what_is_done_soon(self):
        """It has no line, and a terminal that is gone changes nothing."""
        self.listing("box")
        self.assertEqual(lines_of(self.shown("make", self.folder / "old", self.folder / "ready")[2]), [])
        with unittest.mock.patch.object(ADOPT.os, "write", side_effect=OSError), unittest.mock.patch.object(ADOPT.os, "isatty", return_value=True):
            with unittest.mock.patch.object(ADOPT, "BETWEEN_LINES", 0):
                self.assertEqual(list(ADOPT.Progress().over("abc", 3, "letters")), ["a", "b", "c"])


class Slow:
    """A connection over which a reply comes with a speed in bytes a second, and the clock by which it does."""

    def __init__(self, reply, speed):
        self.file, self.speed, self.now = io.BytesIO(reply), speed, 0.0

    def makefile(self, *_, **__):
        return self

    def settimeout(self, _):
        pass

    def monotonic(self):
        return self.now

    def readinto(self, buffer):
        count = self.file.readinto(buffer)
        self.now += count / self.speed
        return count

    def close(self):
        pass


@contextlib.contextmanager
def served(folder, asked=None, odd=()):
    """The URL of a server of the files of a folder, which appends each path that it is asked for. What is odd is answered by a function, by its path."""

    class Handler(http.server.SimpleHTTPRequestHandler):
        def log_message(self, *_):
            pass

        def do_GET(self):
            if asked is not None:
                asked.append(self.path)
            with contextlib.suppress(OSError):
                (dict(odd).get(self.path) or http.server.SimpleHTTPRequestHandler.do_GET)(self)

    with http.server.ThreadingHTTPServer(("127.0.0.1", 0), functools.partial(Handler, directory=str(folder))) as server:
        threading.Thread(target=server.serve_forever, kwargs={"poll_interval": 0.05}, daemon=True).start()
        yield f"http://127.0.0.1:{server.server_port}"
        server.shutdown()


if __name__ == "__main__":
    main()
