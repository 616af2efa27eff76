"""Tests of `archive export`: the tree that it makes, what it leaves alone, what is in its way, and that it may be killed anywhere beside a
reader. The program is that of program.py. EXPORT_SECONDS says for how long exports are killed, in place of 20 seconds."""
import contextlib
import fcntl
import hashlib
import os
import random
import re
import shutil
import signal
import subprocess
import tempfile
import threading
import time

from tests.program import MOMENT, PROGRAM, Lines, mounted
from tests.wants import main, needs
from uploads import uploads

SECONDS = float(os.environ.get("EXPORT_SECONDS", "20"))

TWO = "".join(f"Codename: {name}\nArchitectures: amd64 source\nComponents: main\n\n" for name in ("box", "lab"))[:-1]
TEXTS = ["Release", "main/binary-amd64/Packages", "main/source/Sources"]

# The exit status of an export that can't write at a path.
UNWRITTEN = 3


def sha256(body):
    return hashlib.sha256(body).hexdigest()


def pool_path(name, version):
    return f"pool/main/{name[0]}/{name}/{name}_{version}_amd64.deb"


def upload(folder, name, version, body, note=""):
    """The files of an upload of a package, made in a folder: its .deb, its sidecar, and its .changes, in this order. A note is in the last
    alone."""
    deb, control = f"{name}_{version}_amd64.deb", f"{name}_{version}_amd64.control"
    bodies = {deb: body, control: uploads.control_of(uploads.Package(name, version))}
    changes = uploads.changes_of(name, version, bodies)
    bodies[f"{name}_{version}_amd64.changes"] = changes.replace(b"* Made.", f"* Made{note}.".encode())
    for file, text in bodies.items():
        with open(f"{folder}/{file}", "wb") as it:
            it.write(text)
    return [f"{folder}/{file}" for file in bodies]


def named(packages):
    """The files that a text of Packages names: the digest of each by its path."""
    found = {}
    for paragraph in packages.decode().split("\n\n"):
        fields = dict(re.findall(r"^([A-Za-z0-9]+): (.*)$", paragraph, re.M))
        if fields:
            found[fields["Filename"]] = fields["SHA256"]
    return found


def listed(release):
    """The texts that a Release lists: the digest of each by its path."""
    lines = release.decode().split("SHA256:\n")[1].splitlines()
    return {words[2]: words[0] for words in map(str.split, lines) if len(words) == 3}


def read(path):
    with open(path, "rb") as it:
        return it.read()


def write(path, body):
    os.makedirs(os.path.dirname(path), exist_ok=True)
    with open(path, "wb") as it:
        it.write(body)


def contents(tree, but=()):
    """The contents of a tree: the bytes of each file, and the target of each link, by the path. Folders have None."""
    found = {}
    for folder, folders, files in os.walk(tree):
        for name in folders + files:
            whole = f"{folder}/{name}"
            path = os.path.relpath(whole, tree)
            if not path.startswith(tuple(but) or "\0"):
                found[path] = os.readlink(whole) if os.path.islink(whole) else read(whole) if os.path.isfile(whole) else None
    return found


class Exports(Lines):
    def setUp(self):
        room = tempfile.TemporaryDirectory()
        self.addCleanup(room.cleanup)
        self.room, self.db, self.tree = room.name, f"{room.name}/box.db", f"{room.name}/www"
        self.moment = int(MOMENT)

    def at(self):
        """The next moment."""
        self.moment += 1
        return "--at", str(self.moment)

    def archive(self, conf=TWO):
        write(f"{self.room}/box.conf", conf.encode())
        self.line(0, "init", self.db, *self.at(), f"{self.room}/box.conf")

    def upload(self, name, version, body=None, note=""):
        """Has an upload be judged."""
        body = f"{name} {version}".encode() if body is None else body
        files = upload(self.room, name, version, body, note)
        self.line(0, "put", self.db, *self.at(), *files)
        self.line(0, "run", self.db, *self.at())
        return body

    def export(self, *flags, status=0):
        """The lines that an export prints."""
        return self.line(status, "export", self.db, *flags, self.tree).splitlines()

    def show(self, path):
        ran = subprocess.run([PROGRAM, "show", "--db", self.db, path], capture_output=True, check=False, timeout=120)
        self.assertEqual(ran.returncode, 0, ran.stderr)
        return ran.stdout

    def state(self, suite, release=None):
        """The name of the state that a suite is to show."""
        release = release or self.show(f"dists/{suite}/Release")
        return f".{suite}.{sha256(release)[:32]}"

    def file(self, path):
        return read(f"{self.tree}/{path}")

    def check_tree(self, suites=("box", "lab")):
        """Each suite shows what the archive shows, byte for byte, and all that its indices name is there."""
        for suite in suites:
            self.assertEqual(os.readlink(f"{self.tree}/dists/{suite}"), self.state(suite))
            for text in TEXTS:
                self.assertEqual(self.file(f"dists/{suite}/{text}"), self.show(f"dists/{suite}/{text}"))
            for path, digest in named(self.file(f"dists/{suite}/main/binary-amd64/Packages")).items():
                self.assertEqual(sha256(self.file(path)), digest)
                self.assertEqual(self.file(path), self.show(path))

    def refused(self, path, *flags):
        self.assertEqual(self.export(*flags, status=UNWRITTEN), [f"archive: cannot write {path}"])


class Trees(Exports):
    def test_an_export_is_what_the_archive_shows(self):
        self.archive()
        self.upload("hello", "1.0-1", b"abc")
        lines = self.export()
        self.assertEqual(lines, [f"shown box {self.state('box')}", f"shown lab {self.state('lab')}", "pool 1 0 0 0"])
        self.check_tree()
        packages = self.file("dists/box/main/binary-amd64/Packages")
        self.assertIn(b"Filename: pool/main/h/hello/hello_1.0-1_amd64.deb\n", packages)
        self.assertEqual(self.file("pool/main/h/hello/hello_1.0-1_amd64.deb"), b"abc")
        self.assertTrue(self.file("index.html").startswith(b"<!doctype html>"))
        self.assertTrue(self.file("uploads.html").startswith(b"<!doctype html>"))
        self.assertTrue(self.file("dists/box/index.html").startswith(b"<!doctype html>"))
        self.assertEqual(sorted(os.listdir(f"{self.tree}/.boqitsel")), ["files", "lock"])
        self.assertEqual(sorted(os.listdir(self.tree)), [".boqitsel", "dists", "index.html", "pool", "uploads.html"])

    def test_an_export_of_an_empty_archive(self):
        self.archive()
        self.assertEqual(self.export()[-1], "pool 0 0 0 0")
        self.check_tree()
        self.assertEqual(sorted(os.listdir(self.tree)), [".boqitsel", "dists", "index.html", "uploads.html"])

    def test_another_export_changes_nothing(self):
        self.archive()
        self.upload("hello", "1.0-1")
        self.export()
        before = contents(self.tree)
        times = {path: os.lstat(f"{self.tree}/{path}").st_mtime_ns for path in before}
        self.assertEqual(self.export(), ["same box", "same lab", "pool 0 1 0 0"])
        self.assertEqual(contents(self.tree), before)
        self.assertEqual({path: os.lstat(f"{self.tree}/{path}").st_mtime_ns for path in before}, times)

    def test_what_no_index_names_stays_for_one_export_more(self):
        self.archive()
        self.upload("hello", "1.0-1")
        self.upload("other", "1.0-1")
        self.export()
        first = self.state("box")
        self.line(0, "remove", self.db, *self.at(), "box", "hello")
        second = self.state("box")
        self.assertEqual(self.export(), [f"shown box {second}", "same lab", "pool 0 1 1 0"])
        self.assertEqual(self.file(pool_path("hello", "1.0-1")), b"hello 1.0-1")
        self.assertEqual(sorted(os.listdir(f"{self.tree}/dists")), sorted(["box", "lab", first, second, self.state("lab")]))
        # An export that shows nothing takes nothing away.
        self.assertEqual(self.export(), ["same box", "same lab", "pool 0 1 1 0"])
        self.assertEqual(self.file(pool_path("hello", "1.0-1")), b"hello 1.0-1")
        self.upload("third", "1.0-1")
        third = self.state("box")
        self.assertEqual(self.export(), [f"shown box {third}", "same lab", "pool 1 1 0 1"])
        self.assertFalse(os.path.exists(f"{self.tree}/pool/main/h"))
        self.assertEqual(sorted(os.listdir(f"{self.tree}/dists")), sorted(["box", "lab", second, third, self.state("lab")]))
        self.check_tree()

    def test_a_file_comes_back_before_it_goes(self):
        self.archive()
        self.upload("hello", "1.0-1")
        self.line(0, "copy", self.db, *self.at(), "box", "lab", "hello")
        self.export()
        self.line(0, "remove", self.db, *self.at(), "box", "hello")
        self.line(0, "remove", self.db, *self.at(), "lab", "hello")
        self.assertEqual(self.export()[-1], "pool 0 0 1 0")
        self.upload("hello", "1.0-1", note=" once more")
        self.assertEqual(self.export()[-1], "pool 0 1 0 0")
        self.check_tree()

    def test_a_newer_version_shows_first_and_removes_last(self):
        self.archive()
        for version in ("1.0-1", "1.0-2", "1.0-3"):
            self.upload("hello", version)
            self.export()
            self.check_tree()
        there = sorted(os.listdir(f"{self.tree}/pool/main/h/hello"))
        self.assertEqual(there, ["hello_1.0-2_amd64.deb", "hello_1.0-3_amd64.deb"])

    def test_what_is_not_of_the_archive_stays(self):
        self.archive()
        self.upload("hello", "1.0-1")
        foreign = {
            "robots.txt": b"own",
            "pool/own.deb": b"own",
            "pool/main/h/hello/own.deb": b"own",
            "dists/own/Release": b"own",
            "dists/.own.new": b"own",
            "dists/.box.0123": b"own",
            ".boqitsel/own": b"own",
        }
        for path, body in foreign.items():
            write(f"{self.tree}/{path}", body)
        self.export()
        for version in ("1.0-2", "1.0-3", "1.0-4"):
            self.upload("hello", version)
            self.export()
        self.assertEqual({path: self.file(path) for path in foreign}, foreign)
        self.check_tree()

    def test_other_contents_are_replaced(self):
        self.archive()
        self.upload("hello", "1.0-1", b"abc")
        path = pool_path("hello", "1.0-1")
        for body in (b"xyz", b"longer", b""):
            write(f"{self.tree}/{path}", body)
            self.assertEqual(self.export()[-1], "pool 1 0 0 0")
            self.assertEqual(self.file(path), b"abc")
        # A link is replaced, and what it leads to stays.
        write(f"{self.room}/own", b"own")
        os.unlink(f"{self.tree}/{path}")
        os.symlink(f"{self.room}/own", f"{self.tree}/{path}")
        self.assertEqual(self.export()[-1], "pool 1 0 0 0")
        self.assertEqual((self.file(path), read(f"{self.room}/own")), (b"abc", b"own"))
        os.unlink(f"{self.tree}/{path}")
        self.assertEqual(self.export()[-1], "pool 1 0 0 0")
        self.check_tree()

    def test_the_same_contents_are_not_written_again(self):
        self.archive()
        self.upload("hello", "1.0-1", b"abc")
        path = pool_path("hello", "1.0-1")
        write(f"{self.tree}/{path}", b"abc")
        number = os.stat(f"{self.tree}/{path}").st_ino
        self.assertEqual(self.export()[-1], "pool 0 1 0 0")
        os.utime(f"{self.tree}/{path}", (5, 5))
        self.assertEqual(self.export()[-1], "pool 0 1 0 0")
        self.assertEqual(os.stat(f"{self.tree}/{path}").st_ino, number)

    def test_a_state_that_is_broken_is_made_anew(self):
        self.archive()
        self.upload("hello", "1.0-1")
        self.export()
        state = self.state("box")
        os.unlink(f"{self.tree}/dists/box/Release")
        self.assertEqual(self.export()[:2], ["same box", "mended box 1"])
        self.check_tree()
        shutil.rmtree(f"{self.tree}/dists/{state}")
        self.assertEqual(self.export()[0], f"shown box {state}")
        self.check_tree()
        os.unlink(f"{self.tree}/dists/box")
        self.assertEqual(self.export()[0], f"shown box {state}")
        self.check_tree()

    def test_each_release_is_modified_a_second_later(self):
        self.archive()
        seen = []
        for version in ("1.0-1", "1.0-2", "1.0-3"):
            self.upload("hello", version)
            self.export()
            seen.append(int(os.stat(f"{self.tree}/dists/box/Release").st_mtime))
        self.assertEqual(sorted(set(seen)), seen)

    def test_many_files_are_read_back(self):
        self.archive()
        files = []
        for number in range(300):
            files += upload(self.room, f"many{number}", "1.0-1", b"%d" % number)
        self.line(0, "put", self.db, *self.at(), *files)
        self.line(0, "run", self.db, *self.at())
        self.assertEqual(self.export()[-1], "pool 300 0 0 0")
        self.assertEqual(self.file(".boqitsel/files").count(b"\ncoming "), 300)
        self.assertEqual(self.export()[-1], "pool 0 300 0 0")
        self.assertEqual(self.file(".boqitsel/files").count(b"\nhere "), 300)
        self.check_tree()

    def test_a_folder_may_be_named_in_many_ways(self):
        self.archive()
        self.upload("hello", "1.0-1")
        whole = self.tree
        for name in (whole + "/", whole + "//", f"{self.room}/./www", f"{self.room}/new/folders/www"):
            self.tree = name
            self.export()
            self.check_tree()


class Manifests(Exports):
    def test_a_manifest_that_is_cut(self):
        self.archive()
        self.upload("hello", "1.0-1")
        self.export()
        self.upload("hello", "1.0-2")
        self.export()
        path = f"{self.tree}/.boqitsel/files"
        whole = read(path)
        self.assertIn(b"\nleft " + pool_path("hello", "1.0-1").encode() + b"\n", whole)
        for end in range(len(whole)):
            write(path, whole[:end])
            self.assertEqual(self.export()[:2], ["same box", "same lab"])
            self.assertEqual(self.file(pool_path("hello", "1.0-1")), b"hello 1.0-1")
        self.check_tree()

    def test_a_manifest_with_another_line_is_passed_over(self):
        self.archive()
        self.upload("hello", "1.0-1")
        self.export()
        path, first = f"{self.tree}/.boqitsel/files", b"boqitsel files 1\n"
        write(f"{self.tree}/pool/own", b"own")
        write(f"{self.room}/own", b"own")
        lines = [b"left pool/../../own\n", b"left /pool/own\n", b"left  pool/own\n", b"Left pool/own\n", b"left own\n"]
        lines += [b"left pool/./own\n", b"left pool//own\n", b"left pool/own/\n", b"here 00 1 1.000000000 pool/own\n", b"\n", b"left pool/own\n\xff\n", b"left pool/own\r\n"]
        for line in lines:
            write(path, first + b"left pool/own\n" + line)
            self.upload("hello", f"1.0-{2 + lines.index(line)}")
            self.export()
            self.assertEqual((self.file("pool/own"), read(f"{self.room}/own")), (b"own", b"own"))
        # The files that a good line names are removed.
        write(path, first + b"left pool/own\n")
        self.upload("hello", "2.0-1")
        self.export()
        self.assertFalse(os.path.exists(f"{self.tree}/pool/own"))
        self.check_tree()


class Signed(Exports):
    def sign(self, state):
        for name in ("InRelease", "Release.gpg"):
            write(f"{self.tree}/dists/{state}/{name}", b"signed")

    def test_a_suite_waits_for_its_signature(self):
        self.archive()
        self.upload("hello", "1.0-1")
        box, lab = self.state("box"), self.state("lab")
        self.assertEqual(self.export("--signed"), [f"waits box {box}", f"waits lab {lab}", "pool 1 0 0 0"])
        self.assertFalse(os.path.lexists(f"{self.tree}/dists/box"))
        self.assertEqual(self.file(f"dists/{box}/Release"), self.show("dists/box/Release"))
        self.sign(box)
        self.assertEqual(self.export("--signed"), [f"shown box {box}", f"waits lab {lab}", "pool 0 1 0 0"])
        self.sign(lab)
        self.assertEqual(self.export("--signed"), ["same box", f"shown lab {lab}", "pool 0 1 0 0"])
        self.check_tree()

    def test_the_state_before_is_shown_meanwhile(self):
        self.archive()
        states = []
        for version in ("1.0-1", "1.0-2", "1.0-3", "1.0-4"):
            self.upload("hello", version)
            self.export("--signed")
            if states:
                self.assertEqual(os.readlink(f"{self.tree}/dists/box"), states[-1])
                path, _ = named(self.file("dists/box/main/binary-amd64/Packages")).popitem()
                self.assertTrue(os.path.exists(f"{self.tree}/{path}"))
            states.append(self.state("box"))
            self.sign(states[-1])
            self.sign(self.state("lab"))
            self.assertEqual(self.export("--signed")[0], f"shown box {states[-1]}")
            self.assertTrue(os.path.exists(f"{self.tree}/dists/box/InRelease"))
        there = sorted(os.listdir(f"{self.tree}/pool/main/h/hello"))
        self.assertEqual(there, ["hello_1.0-3_amd64.deb", "hello_1.0-4_amd64.deb"])

    def test_whoever_signs_may_show(self):
        """The link is renamed by another program, and no export shows anything: what was left goes all the same."""
        self.archive()
        for version in ("1.0-1", "1.0-2", "1.0-3", "1.0-4", "1.0-5"):
            self.upload("hello", version)
            self.export("--signed")
            for suite in ("box", "lab"):
                state = self.state(suite)
                self.sign(state)
                os.symlink(state, f"{self.tree}/dists/new")
                os.rename(f"{self.tree}/dists/new", f"{self.tree}/dists/{suite}")
            self.assertEqual(self.export("--signed")[:2], ["same box", "same lab"])
            self.check_tree()
        there = sorted(os.listdir(f"{self.tree}/pool/main/h/hello"))
        self.assertEqual(there, ["hello_1.0-4_amd64.deb", "hello_1.0-5_amd64.deb"])
        self.assertEqual(len([name for name in os.listdir(f"{self.tree}/dists") if name.startswith(".box.")]), 2)

    def test_states_that_were_never_signed_go(self):
        self.archive()
        for version in ("1.0-1", "1.0-2", "1.0-3"):
            self.upload("hello", version)
            self.export("--signed")
        self.assertEqual([name for name in os.listdir(f"{self.tree}/dists") if name.startswith(".box.")], [self.state("box")])

    def test_a_lost_signature_is_told(self):
        self.archive()
        self.upload("hello", "1.0-1")
        self.export()
        self.sign("box")
        self.upload("hello", "1.0-2")
        shown = os.readlink(f"{self.tree}/dists/box")
        self.assertEqual(self.export(status=1), ["archive: suite box is signed in the tree: give --signed or --unsigned"])
        self.assertEqual(os.readlink(f"{self.tree}/dists/box"), shown)
        self.assertEqual(self.export("--unsigned"), [f"shown box {self.state('box')}", "unsigned box", "same lab", "pool 1 0 1 0"])
        self.assertEqual(self.export(), ["same box", "same lab", "pool 0 1 1 0"])


class ByHash(Exports):
    def digests(self, suite, text):
        folder = f"{self.tree}/dists/{suite}/{os.path.dirname(text)}/by-hash/SHA256"
        return {name for name in os.listdir(folder) if sha256(read(f"{folder}/{name}")) == name}

    def test_the_texts_of_three_states_are_there_by_their_digests(self):
        self.archive()
        text = "main/binary-amd64/Packages"
        seen = []
        for number in range(1, 6):
            self.upload("hello", f"1.0-{number}")
            plain = self.show("dists/box/Release")
            self.export("--by-hash")
            self.assertEqual(self.file("dists/box/Release"), plain)
            self.assertEqual(listed(plain)[text], sha256(self.file(f"dists/box/{text}")))
            seen.append(listed(plain)[text])
            self.assertEqual(self.digests("box", text), set(seen[-3:]))
        self.check_tree()

    def test_they_come_to_what_is_shown(self):
        self.archive()
        text = "main/binary-amd64/Packages"
        self.upload("hello", "1.0-1")
        self.export()
        self.upload("hello", "1.0-2")
        self.export()
        self.assertFalse(os.path.exists(f"{self.tree}/dists/box/main/binary-amd64/by-hash"))
        self.assertEqual(self.export("--by-hash")[0], "same box")
        self.assertEqual(len(self.digests("box", text)), 2)


class InTheWay(Exports):
    """What stands in the way: the line, the status, and that what is shown stays whole."""

    def stand(self):
        self.archive()
        self.upload("hello", "1.0-1")
        self.export()
        self.shown = os.readlink(f"{self.tree}/dists/box")

    def check_shown(self):
        """What the state that is shown names is there."""
        self.assertEqual(os.readlink(f"{self.tree}/dists/box"), self.shown)
        release = self.file("dists/box/Release")
        for text, digest in listed(release).items():
            self.assertEqual(sha256(self.file(f"dists/box/{text}")), digest)
        for path, digest in named(self.file("dists/box/main/binary-amd64/Packages")).items():
            self.assertEqual(sha256(self.file(path)), digest)

    def test_a_file_in_place_of_a_folder(self):
        self.stand()
        self.upload("other", "1.0-1")
        write(f"{self.tree}/pool/main/o", b"own")
        self.refused(f"{self.tree}/pool/main/o")
        self.assertEqual(self.file("pool/main/o"), b"own")
        self.check_shown()
        os.unlink(f"{self.tree}/pool/main/o")
        self.export()
        self.check_tree()

    def test_a_folder_in_place_of_a_file(self):
        self.stand()
        self.upload("other", "1.0-1")
        path = pool_path("other", "1.0-1")
        os.makedirs(f"{self.tree}/{path}")
        write(f"{self.tree}/{path}/own", b"own")
        self.refused(f"{self.tree}/{path}")
        self.check_shown()
        self.assertEqual(self.file(f"{path}/own"), b"own")
        shutil.rmtree(f"{self.tree}/{path}")
        self.export()
        self.check_tree()

    def test_a_folder_in_place_of_a_suite(self):
        self.archive()
        self.upload("hello", "1.0-1")
        write(f"{self.tree}/dists/box/own", b"own")
        self.refused(f"{self.tree}/dists/box")
        self.assertEqual(self.file("dists/box/own"), b"own")

    def test_a_file_in_place_of_the_tree(self):
        self.archive()
        write(self.tree, b"own")
        self.refused(self.tree)
        self.assertEqual(read(self.tree), b"own")

    def test_a_file_in_place_of_dists(self):
        self.archive()
        write(f"{self.tree}/dists", b"own")
        self.refused(f"{self.tree}/dists")
        self.assertEqual(self.file("dists"), b"own")

    def test_a_file_in_place_of_pool(self):
        self.archive()
        self.upload("hello", "1.0-1")
        write(f"{self.tree}/pool", b"own")
        self.refused(f"{self.tree}/pool")
        self.assertEqual(self.file("pool"), b"own")

    def test_a_lock_that_is_held(self):
        self.stand()
        self.upload("other", "1.0-1")
        with open(f"{self.tree}/.boqitsel/lock", "r+b") as lock:
            fcntl.flock(lock, fcntl.LOCK_EX)
            self.refused(f"{self.tree}/.boqitsel/lock")
        self.check_shown()
        self.export()
        self.check_tree()

    @needs(*["setpriv"] * (os.geteuid() == 0))
    def test_a_tree_without_rights(self):
        self.archive()
        os.makedirs(self.tree)
        os.chmod(self.tree, 0o555)
        os.chmod(self.room, 0o777)
        for name in os.listdir(self.room):
            if name.startswith("box.db"):
                os.chmod(f"{self.room}/{name}", 0o666)
        under = ["setpriv", "--reuid", "65534", "--regid", "65534", "--clear-groups"] if os.geteuid() == 0 else []
        line = [*under, PROGRAM, "export", "--db", self.db, self.tree]
        ran = subprocess.run(line, capture_output=True, text=True, check=False, timeout=120)
        self.assertEqual((ran.returncode, ran.stdout + ran.stderr), (UNWRITTEN, f"archive: cannot write {self.tree}/.boqitsel\n"))

    def test_a_full_disk(self):
        self.archive()
        with mounted(1 << 20) as folder:
            self.tree = f"{folder}/www"
            self.upload("hello", "1.0-1", b"a" * 300_000)
            self.export()
            self.shown = os.readlink(f"{self.tree}/dists/box")
            self.upload("large", "1.0-1", b"b" * 2_000_000)
            self.refused(f"{self.tree}/.boqitsel/new")
            self.check_shown()
            self.line(0, "remove", self.db, *self.at(), "box", "large")
            self.assertEqual(self.export()[-1], "pool 0 1 1 0")
            self.check_tree()

    def test_control_characters_are_not_printed(self):
        self.archive()
        self.tree = f"{self.room}/a\x1b[2Jb"
        write(self.tree, b"own")
        self.refused(f"{self.room}/a?[2Jb")

    def test_a_moment_after_2099(self):
        self.archive()
        self.export("--at", "4102444800", status=2)
        self.assertFalse(os.path.lexists(self.tree))


class Killed(Exports):
    """Exports that are killed at random beside readers. A reader finds the folder of a state by its link once, and then all that the state
    names, until as many exports have ended as may take it away."""

    def setUp(self):
        super().setUp()
        self.random = random.Random(int(os.environ.get("EXPORT_SEED", "1")))
        self.ended, self.reads, self.faults, self.is_over = 0, 0, [], False

    def change(self):
        """Changes what is shown."""
        for _ in range(self.random.randint(1, 3)):
            name, kind = f"p{self.random.randint(0, 9)}", self.random.random()
            if kind < 0.6:
                self.version += 1
                self.upload(name, f"1.{self.version}-1", os.urandom(self.random.randint(1, 50_000)))
            elif kind < 0.8:
                self.change_line("remove", "box", name)
            else:
                self.change_line("copy", "box", "lab", name)

    def change_line(self, word, *words):
        subprocess.run([PROGRAM, word, "--db", self.db, *self.at(), *words], capture_output=True, check=False, timeout=120)

    def read_once(self, suite, waits):
        """Reads a state, and what it names; `waits` is the pause before it asks for that."""
        began = self.ended
        with contextlib.suppress(FileNotFoundError):
            folder = f"{self.tree}/dists/{os.readlink(f'{self.tree}/dists/{suite}')}"
            texts = {text: read(f"{folder}/{text}") for text in TEXTS}
            for text, digest in listed(texts["Release"]).items():
                if sha256(texts[text]) != digest:
                    self.faults.append(f"{folder}/{text} is not as its Release says")
            time.sleep(waits)
            for path, digest in named(texts["main/binary-amd64/Packages"]).items():
                try:
                    is_right = sha256(read(f"{self.tree}/{path}")) == digest
                except FileNotFoundError:
                    is_right = None
                if self.ended - began <= 1 and is_right is not True:
                    self.faults.append(f"{path} is {'missing' if is_right is None else 'another'}")
            self.reads += 1

    def read_on(self, suite, waits):
        while not self.is_over:
            self.read_once(suite, waits)

    def test_readers_find_all_that_is_named(self):
        self.archive()
        self.version = 0
        self.upload("p0", "1.0-1")
        self.export()
        readers = [threading.Thread(target=self.read_on, args=it) for it in (("box", 0), ("lab", 0), ("box", 0.02), ("lab", 0.02))]
        for reader in readers:
            reader.start()
        kills, until = 0, time.monotonic() + SECONDS
        try:
            while time.monotonic() < until:
                if self.random.random() < 0.7:
                    self.change()
                with subprocess.Popen([PROGRAM, "export", "--db", self.db, self.tree], stdout=subprocess.DEVNULL) as run:
                    if self.random.random() < 0.6:
                        time.sleep(self.random.random() * 0.15)
                        run.send_signal(signal.SIGKILL)
                    status = run.wait()
                self.assertIn(status, (0, -signal.SIGKILL))
                kills += status != 0
                # A killed export may have shown something.
                self.ended += 1
        finally:
            self.is_over = True
            for reader in readers:
                reader.join()
        self.assertEqual(self.faults[:3], [])
        self.assertGreater(self.reads, 0)
        for number in range(3):
            self.upload("last", f"1.0-{number + 1}")
            self.export()
        self.check_tree()
        self.assertEqual(sorted(os.listdir(f"{self.tree}/.boqitsel")), ["files", "lock"])
        known = set(re.findall(r"^(?:here|coming|left) .*?(pool/\S+)$", self.file(".boqitsel/files").decode(), re.M))
        there = {path for path, body in contents(self.tree).items() if path.startswith("pool/") and body is not None}
        self.assertEqual(there - known, set())
        print(f"{kills} exports killed, {self.reads} states read")


if __name__ == "__main__":
    main()
