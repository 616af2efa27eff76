"""Tests of `archive export`, and of `serve --export`, among files that others have put into the tree: links that lead out of it, fifos, sockets, folders
and junk at the paths of its files and folders, a manifest that lies, the database itself at such a path, signatures, components that are named as files,
and suites that are gone. After each case the tree is compared with one that was exported into a new folder, and nothing outside was read, written or
removed. The program is that of program.py."""
import contextlib
import functools
import os
import re
import shutil
import subprocess
import tempfile
import time
import unittest

from tests.planted import Outside, number_of, plant, remove
from tests.program import PROGRAM, Serving, replied
from tests.test_export import TWO, UNWRITTEN, Exports, contents, pool_path, read, write
from tests.wants import main, needs

# How long an export may take among such files, in seconds. A program that waits for a fifo or a lock takes longer.
LIMIT = 120

OWN = (".boqitsel",)
DEB = pool_path("hello", "1.0-1")
PACKAGES = "main/binary-amd64/Packages"
RUN = b"POST /queue/run HTTP/1.1\r\n\r\n"

# What may be at the place of a file, and is replaced by it; and what may be at the place of a folder, and is refused.
LINKS = "link", "link to nothing", "link to a folder", "link to a fifo"
OTHERS = "fifo", "socket", "device"
REPLACED = *LINKS, *OTHERS, "junk", "nothing"
REFUSED = *LINKS, *OTHERS, "junk"

SAME = "same box\nsame lab\n"


class Made(Exports):
    """An archive that shows a package, its tree, and what is in a tree of it that was made anew. It is made once."""

    def make(self):
        self.setUp()
        unittest.addModuleCleanup(self.doCleanups)
        self.archive()
        self.upload("hello", "1.0-1")
        self.export()
        self.states = {suite: os.readlink(f"{self.tree}/dists/{suite}") for suite in ("box", "lab")}
        self.fresh = contents(self.tree, but=OWN)
        return self


@functools.cache
def made():
    return Made("make").make()


class Hostile(Exports):
    def setUp(self):
        super().setUp()
        self.made = made()
        self.moment, self.states, self.fresh = self.made.moment, self.made.states, self.made.fresh
        for name in os.listdir(self.made.room):
            if name.startswith("box."):
                shutil.copy2(f"{self.made.room}/{name}", self.room)
        self.begin()
        self.outside = Outside(f"{self.room}/outside")

    def begin(self):
        """Has the tree be as an export has left it."""
        remove(self.tree)
        shutil.copytree(self.made.tree, self.tree, symlinks=True)

    def begin_anew(self):
        """Has the tree be one that no export has been in."""
        remove(self.tree)
        os.mkdir(self.tree)

    def ran(self, *flags, db=None):
        """What an export ends with: its status, what it prints, and what it says on standard error."""
        try:
            line = [PROGRAM, "export", "--db", db or self.db, *flags, self.tree]
            ran = subprocess.run(line, stdin=subprocess.DEVNULL, capture_output=True, text=True, check=False, timeout=LIMIT)
        except subprocess.TimeoutExpired:
            self.fail(f"The export goes on after {LIMIT} seconds.")
        return ran.returncode, ran.stdout, ran.stderr

    def check_outside(self):
        self.assertEqual(self.outside.faults(), [])

    def check_exports(self, printed, *flags):
        """An export ends well, prints what matches a pattern, and touches nothing that is outside."""
        status, out, told = self.ran(*flags)
        self.assertEqual((status, told), (0, ""))
        self.assertRegex(out, f"^{printed}$")
        self.check_outside()

    def check_fresh(self, fresh=None):
        """The tree is as one that is made anew, but for the export's own files."""
        self.assertEqual(contents(self.tree, but=OWN), fresh or self.fresh)
        self.assertLessEqual(set(os.listdir(f"{self.tree}/.boqitsel")), {"files", "lock"})

    def check_refused(self, path, *flags, db=None):
        """An export can't write at a path of the tree, which may be a pattern, and touches nothing that is outside."""
        status, _, told = self.ran(*flags, db=db)
        self.assertRegex(told, f"^archive: cannot write {re.escape(self.tree)}/{path}\n$")
        self.assertEqual(status, UNWRITTEN)
        self.check_outside()

    def planted(self, kinds, place):
        """Has each kind of file be at a place of the tree."""
        for kind in kinds:
            self.begin()
            if plant(kind, f"{self.tree}/{place}", self.outside.folder):
                yield kind

    def check_replaced(self, place, printed, kinds=REPLACED, begin=lambda: None):
        """What is at the place of a file of the tree is replaced by the file."""
        for kind in self.planted(kinds, place):
            with self.subTest(place=place, kind=kind):
                begin()
                self.check_exports(printed)
                self.check_fresh()

    def check_stays(self, place, path, kinds=REFUSED, begin=lambda: None):
        """What is at a place of the tree is refused, and stays. Once it is removed the next export is as any other."""
        for kind in self.planted(kinds, place):
            with self.subTest(place=place, kind=kind):
                begin()
                whole = f"{self.tree}/{place}"
                number = number_of(whole)
                self.check_refused(path)
                self.assertEqual(number_of(whole), number)
                if kind == "folder":
                    self.assertEqual(read(f"{whole}/own"), b"own")
                remove(whole)
                self.check_exports("[^!]*")
                self.check_fresh()


class Files(Hostile):
    """What is at the place of a file."""

    def test_pages(self):
        for place in ("index.html", "uploads.html"):
            self.check_replaced(place, f"{SAME}pool 0 1 0 0\n")
            self.check_stays(place, re.escape(place), ["folder"])

    def test_a_file_of_the_pool(self):
        self.check_replaced(DEB, f"{SAME}pool 1 0 0 0\n")
        self.check_stays(DEB, re.escape(DEB), ["folder"])

    def test_a_file_of_the_pool_that_is_outside(self):
        """The bytes are right, and yet it is a link."""
        self.outside.folder += "/folder"
        write(f"{self.outside.folder}/{os.path.basename(DEB)}", b"hello 1.0-1")
        self.outside.keep()
        remove(f"{self.tree}/{DEB}")
        os.symlink(f"{self.outside.folder}/{os.path.basename(DEB)}", f"{self.tree}/{DEB}")
        self.check_exports(f"{SAME}pool 1 0 0 0\n")
        self.check_fresh()

    def test_a_file_that_has_another_name_outside(self):
        """The bytes at the other name stay as they are."""
        for place, pool in (("index.html", "0 1"), (DEB, "1 0"), (".boqitsel/new", "0 1"), (".boqitsel/files", "0 1")):
            with self.subTest(place=place):
                self.begin()
                remove(f"{self.room}/named")
                write(f"{self.room}/named", b"named twice")
                remove(f"{self.tree}/index.html")
                remove(f"{self.tree}/{place}")
                os.link(f"{self.room}/named", f"{self.tree}/{place}")
                self.check_exports(f"{SAME}pool {pool} 0 0\n")
                self.check_fresh()
                self.assertEqual((read(f"{self.room}/named"), os.stat(f"{self.room}/named").st_nlink), (b"named twice", 1))

    def test_the_manifest(self):
        self.check_replaced(".boqitsel/files", f"{SAME}pool 0 1 0 0\n")
        self.assertTrue(os.path.isfile(f"{self.tree}/.boqitsel/files"))
        self.check_stays(".boqitsel/files", r"\.boqitsel/files", ["folder"])

    def test_the_name_of_what_is_new(self):
        """A page is written anew in each case."""
        without_a_page = lambda: remove(f"{self.tree}/index.html")
        self.check_replaced(".boqitsel/new", f"{SAME}pool 0 1 0 0\n", begin=without_a_page)
        self.check_stays(".boqitsel/new", r"(\.boqitsel/new|index\.html)", ["folder"], begin=without_a_page)

    def test_the_name_of_a_link_that_is_new(self):
        without_a_link = lambda: remove(f"{self.tree}/dists/box")
        self.check_replaced(".boqitsel/link", f"shown box {re.escape(self.states['box'])}\nsame lab\npool 0 1 0 0\n", begin=without_a_link)
        self.check_stays(".boqitsel/link", r"(\.boqitsel/link|dists/box)", ["folder"], begin=without_a_link)

    def test_the_lock(self):
        self.check_stays(".boqitsel/lock", r"\.boqitsel/lock", [*LINKS, *OTHERS, "folder"])
        self.check_replaced(".boqitsel/lock", f"{SAME}pool 0 1 0 0\n", ["junk", "nothing"])

    def test_the_link_of_a_suite(self):
        """It is replaced by a rename, whatever file it is. A suite does not show a state that is not its own."""
        shown = f"shown box {re.escape(self.states['box'])}\nsame lab\npool 0 1 0 0\n"
        self.check_replaced("dists/box", shown, [*LINKS, *OTHERS, "junk", "nothing"])
        self.check_stays("dists/box", "dists/box", ["folder"])
        for leads in (self.states["lab"], "../dists/" + self.states["box"], self.outside.folder, ".box." + "0" * 32):
            with self.subTest(leads=leads):
                self.begin()
                remove(f"{self.tree}/dists/box")
                os.symlink(leads, f"{self.tree}/dists/box")
                self.check_exports(shown)
                self.check_fresh()


class States(Hostile):
    """What is in the folder of a state is mended."""

    def mended(self, count):
        """What is printed of a state in which this number of texts is right again."""
        return f"(same box|shown box {re.escape(self.states['box'])})\nmended box {count}\nsame lab\npool 0 1 0 0\n"

    def place(self, path):
        return f"dists/{self.states['box']}/{path}"

    def test_texts(self):
        for text in ("Release", PACKAGES):
            self.check_replaced(self.place(text), self.mended(1), [*REPLACED, "folder"])

    def test_a_text_with_one_other_byte(self):
        """Its size and its moment are as they were."""
        for text in ("Release", PACKAGES):
            with self.subTest(text=text):
                self.begin()
                path = f"{self.tree}/{self.place(text)}"
                body, seen = read(path), os.stat(path)
                write(path, body[:-2] + bytes([body[-2] ^ 1]) + body[-1:])
                os.utime(path, ns=(seen.st_atime_ns, seen.st_mtime_ns))
                self.check_exports(self.mended(1))
                self.check_fresh()

    def test_all_texts(self):
        for text in ("Release", PACKAGES, "main/source/Sources"):
            write(f"{self.tree}/{self.place(text)}", b"junk")
            write(f"{self.tree}/{self.place(text).replace(self.states['box'], self.states['lab'])}", b"junk")
        states = {suite: re.escape(state) for suite, state in self.states.items()}
        lines = "".join(f"(same {suite}|shown {suite} {states[suite]})\nmended {suite} 3\n" for suite in ("box", "lab"))
        self.check_exports(f"{lines}pool 0 1 0 0\n")
        self.check_fresh()
        self.check_exports(f"{SAME}pool 0 1 0 0\n")

    def test_a_text_that_has_another_name_outside(self):
        """The bytes at the other name stay as they are."""
        write(f"{self.room}/named", b"named twice")
        remove(f"{self.tree}/{self.place(PACKAGES)}")
        os.link(f"{self.room}/named", f"{self.tree}/{self.place(PACKAGES)}")
        self.check_exports(self.mended(1))
        self.check_fresh()
        self.assertEqual((read(f"{self.room}/named"), os.stat(f"{self.room}/named").st_nlink), (b"named twice", 1))

    def test_folders(self):
        for place, count in (("main", 2), ("main/binary-amd64", 1)):
            self.check_replaced(self.place(place), self.mended(count))

    def test_a_folder_that_is_the_same_outside(self):
        """The texts that a link leads to are right, and yet it is a link."""
        shutil.copytree(f"{self.tree}/{self.place('main')}", f"{self.outside.folder}/main")
        self.outside.keep()
        remove(f"{self.tree}/{self.place('main')}")
        os.symlink(f"{self.outside.folder}/main", f"{self.tree}/{self.place('main')}")
        self.check_exports(self.mended(2))
        self.check_fresh()

    def test_the_page_of_a_suite(self):
        """It is made anew if it is missing or another kind of file. What a file has that is there is not looked at."""
        kinds = [kind for kind in (*REPLACED, "folder") if kind != "junk"]
        self.check_replaced(self.place("index.html"), self.mended(1), kinds)

    def test_the_folder_itself(self):
        """It is made anew, or refused, and nothing outside is touched."""
        place = self.place("")[:-1]
        for kind in self.planted([*REPLACED, "folder"], place):
            with self.subTest(kind=kind):
                status, _, told = self.ran()
                self.check_outside()
                if status:
                    self.assertEqual((status, told), (UNWRITTEN, f"archive: cannot write {self.tree}/{place}\n"))
                    remove(f"{self.tree}/{place}")
                    self.check_exports("[^!]*")
                elif kind == "folder":
                    remove(f"{self.tree}/{place}/own")
                self.check_fresh()

    def test_a_signature_stays(self):
        for suite in ("box", "lab"):
            write(f"{self.tree}/dists/{self.states[suite]}/InRelease", b"signed")
        write(f"{self.tree}/{self.place(PACKAGES)}", b"junk")
        self.check_exports(self.mended(1), "--signed")
        self.assertEqual(self.file("dists/box/InRelease"), b"signed")
        for suite in ("box", "lab"):
            remove(f"{self.tree}/dists/{self.states[suite]}/InRelease")
        self.assertEqual({path: body for path, body in contents(self.tree, but=OWN).items() if path != "index.html"},
                         {path: body for path, body in self.fresh.items() if path != "index.html"})


class Folders(Hostile):
    """What is at the place of a folder."""

    def test_folders_of_the_tree(self):
        for place in ("dists", "pool", "pool/main", "pool/main/h", "pool/main/h/hello", ".boqitsel"):
            self.check_stays(place, re.escape(place))

    def test_a_folder_that_is_the_same_outside(self):
        """What a link leads to is a copy of the folder, with the lock, the manifest and the files that are right."""
        for place in ("dists", "pool", "pool/main", "pool/main/h", ".boqitsel"):
            with self.subTest(place=place):
                self.begin()
                copy = f"{self.outside.folder}/{os.path.basename(place)}"
                shutil.copytree(f"{self.tree}/{place}", copy, symlinks=True)
                self.outside.keep()
                remove(f"{self.tree}/{place}")
                os.symlink(copy, f"{self.tree}/{place}")
                self.check_refused(re.escape(place))
                self.assertEqual(os.readlink(f"{self.tree}/{place}"), copy)

    def test_a_folder_that_is_missing_is_made(self):
        shown = "".join(f"shown {suite} {re.escape(state)}\n(mended {suite} 3\n)?" for suite, state in self.states.items())
        for place, printed in (("dists", f"{shown}pool 0 1 0 0\n"), ("pool", f"{SAME}pool 1 0 0 0\n"), (".boqitsel", f"{SAME}pool 0 1 0 0\n")):
            self.check_replaced(place, printed, ["nothing"])

    def test_a_tree_that_a_link_leads_to(self):
        shutil.move(self.tree, f"{self.room}/srv")
        os.symlink("srv", self.tree)
        write(f"{self.tree}/index.html", b"junk")
        self.check_exports(f"{SAME}pool 0 1 0 0\n")
        self.assertEqual(os.readlink(self.tree), "srv")
        self.check_fresh()


class Databases(Hostile):
    """The database at a path of the tree."""

    def places(self):
        """Paths at which an export puts a file into a new tree, or that it removes, each with what is printed for
        it."""
        state = f"dists/{self.states['box']}"
        told = {place: re.escape(place) for place in ("index.html", "uploads.html", DEB, ".boqitsel/files", ".boqitsel/new", ".boqitsel/link")}
        return {**told, f"{state}/Release": f"dists/{re.escape(self.states['box'])}(/Release)?", f"{state}/{PACKAGES}": f"dists/{re.escape(self.states['box'])}(/.*)?"}

    def check_kept(self, path, body):
        self.assertEqual((read(path), os.path.islink(path)), (body, False))

    def test_the_database_at_a_path_of_the_tree(self):
        body = read(self.db)
        for place, told in self.places().items():
            with self.subTest(place=place):
                self.begin_anew()
                db = f"{self.tree}/{place}"
                write(db, body)
                shutil.copy(f"{self.db}-wal", f"{db}-wal")
                self.check_refused(told, db=db)
                self.check_kept(db, body)
                self.line(0, "verdicts", db)

    def test_another_name_of_the_database_or_of_a_file_beside_it(self):
        """A database that has another name, or whose -wal has one, may be refused when it is opened."""
        for beside in ("", "-wal", "-journal", "-shm"):
            for place, told in self.places().items() if not beside else [("index.html", r"index\.html"), (DEB, re.escape(DEB))]:
                with self.subTest(place=place, beside=beside):
                    self.begin_anew()
                    source = f"{self.db}{beside}"
                    if not os.path.exists(source):
                        write(source, b"")
                    number, body = number_of(source), read(source)
                    os.makedirs(os.path.dirname(f"{self.tree}/{place}"), exist_ok=True)
                    os.link(source, f"{self.tree}/{place}")
                    status, _, said = self.ran()
                    opened = "" if beside in ("-journal", "-shm") else "K2|"
                    self.assertRegex(said, f"^archive: ({opened}cannot write {re.escape(self.tree)}/{told})\n$")
                    self.assertEqual(status, 3 if "K2" in said else UNWRITTEN)
                    self.assertEqual((number_of(source), number_of(f"{self.tree}/{place}")), (number, number))
                    # Whoever opens a database writes the head of its -wal anew, of the same length.
                    self.assertEqual(len(read(source)), len(body))
                    self.assertTrue(beside == "-wal" or read(source) == body)

    def test_a_link_to_the_database_is_replaced(self):
        body = read(self.db)
        for place, pool in (("index.html", "0 1"), (DEB, "1 0")):
            with self.subTest(place=place):
                self.begin()
                remove(f"{self.tree}/{place}")
                os.symlink(self.db, f"{self.tree}/{place}")
                self.check_exports(f"{SAME}pool {pool} 0 0\n")
                self.check_kept(self.db, body)
                self.check_fresh()

    def test_a_database_that_is_named_by_a_link(self):
        self.begin_anew()
        body = read(self.db)
        for name in ("", "-wal"):
            shutil.move(f"{self.db}{name}", f"{self.tree}/index.html{name}")
        os.symlink(f"{self.tree}/index.html", self.db)
        self.check_refused(r"index\.html")
        self.check_kept(f"{self.tree}/index.html", body)

    def test_a_database_that_is_to_be_removed(self):
        """A manifest says that it was left, and something is shown."""
        db = f"{self.tree}/pool/box.db"
        for name in ("", "-wal"):
            shutil.move(f"{self.db}{name}", f"{db}{name}")
        body = read(db)
        write(f"{self.tree}/.boqitsel/files", self.file(".boqitsel/files") + b"left pool/box.db\n")
        remove(f"{self.tree}/dists/box")
        self.check_refused(r"pool/box\.db", db=db)
        self.check_kept(db, body)

    def test_a_database_in_an_old_state(self):
        """Its folder would go with the next export that shows something."""
        old = f"dists/.box.{'0' * 32}"
        db = f"{self.tree}/{old}/box.db"
        write(db, read(self.db))
        shutil.copy(f"{self.db}-wal", f"{db}-wal")
        body = read(db)
        remove(f"{self.tree}/dists/box")
        self.check_refused(rf"{re.escape(old)}(/box\.db(-wal)?)?", db=db)
        self.check_kept(db, body)
        self.assertTrue(os.path.exists(f"{db}-wal"))


class Manifests(Hostile):
    def add(self, *lines):
        """Adds lines to the manifest."""
        write(f"{self.tree}/.boqitsel/files", self.file(".boqitsel/files") + "".join(f"{line}\n" for line in lines).encode())

    def test_what_was_left_below_a_link_stays(self):
        """It is refused or passed over."""
        for leads, path in ((self.outside.folder + "/folder", "pool/link/file"), (self.outside.folder + "/folder", "pool/link/below/own")):
            with self.subTest(path=path):
                self.begin()
                os.symlink(leads, f"{self.tree}/pool/link")
                self.add(f"left {path}")
                remove(f"{self.tree}/dists/box")
                status, _, told = self.ran()
                self.check_outside()
                self.assertIn((status, told), ((0, ""), (UNWRITTEN, f"archive: cannot write {self.tree}/pool/link\n")))
                self.assertEqual(os.readlink(f"{self.tree}/pool/link"), leads)

    def test_what_was_left_and_is_no_file_stays(self):
        for kind in ("link", "link to a fifo", "fifo", "socket"):
            with self.subTest(kind=kind):
                self.begin()
                plant(kind, f"{self.tree}/pool/left", self.outside.folder)
                self.add("left pool/left")
                remove(f"{self.tree}/dists/box")
                self.check_exports(r"shown box .*\nsame lab\npool 0 1 0 [01]\n")

    def changed(self, *shown):
        """A manifest that says what the suite showed."""
        lines = [line for line in self.file(".boqitsel/files").decode().splitlines() if not line.startswith("shown box ")]
        write(f"{self.tree}/.boqitsel/files", "".join(f"{line}\n" for line in [lines[0], *shown, *lines[1:]]).encode())

    def test_a_state_that_is_none_of_the_suite_does_not_count(self):
        """The states that are named have texts of their own, by which no text of the suite is named."""
        with tempfile.TemporaryDirectory() as room:
            tree, self.tree = self.tree, f"{room}/www"
            self.export("--by-hash")
            fresh, self.tree = contents(self.tree, but=OWN), tree
        foreign = {
            f"../../{os.path.basename(self.outside.folder)}/state": f"{self.outside.folder}/state",
            f".lab.{'0' * 32}": f"{self.tree}/dists/.lab.{'0' * 32}",
            f".box.{'A' * 32}": f"{self.tree}/dists/.box.{'A' * 32}",
            f".box.{'0' * 31}": f"{self.tree}/dists/.box.{'0' * 31}",
            f".box.{'0' * 33}": f"{self.tree}/dists/.box.{'0' * 33}",
            ".box.new.": f"{self.tree}/dists/.box.new.",
            "own": f"{self.tree}/dists/own",
        }
        for state, folder in foreign.items():
            for line in (f"shown box {state} -", f"shown box {self.states['box']} {state}"):
                with self.subTest(line=line):
                    self.begin()
                    remove(folder)
                    shutil.copytree(f"{self.tree}/dists/{self.states['box']}", folder)
                    write(f"{folder}/{PACKAGES}", b"own")
                    release = read(f"{folder}/Release").replace(b"SHA256:\n", b"SHA256:\n " + b"0" * 64 + b" 3 main/binary-amd64/Packages\n")
                    write(f"{folder}/Release", release)
                    self.outside.keep()
                    self.changed(line)
                    self.check_exports("[^!]*", "--by-hash")
                    if folder.startswith(self.tree) and not re.fullmatch(r"\.lab\.0*", state):
                        self.assertEqual(read(f"{folder}/{PACKAGES}"), b"own")
                    remove(folder)
                    self.outside.keep()
                    self.check_fresh(fresh)


class Signatures(Hostile):
    def sign(self, suite, name="InRelease"):
        write(f"{self.tree}/dists/{self.states[suite]}/{name}", b"signed")

    def check_kept_signed(self, suite):
        """An export without a word on signatures is refused before anything is written."""
        before = contents(self.tree)
        moments = {path: os.lstat(f"{self.tree}/{path}").st_mtime_ns for path in before}
        self.assertEqual(self.ran(), (1, "", f"archive: suite {suite} is signed in the tree: give --signed or --unsigned\n"))
        self.assertEqual(contents(self.tree), before)
        self.assertEqual({path: os.lstat(f"{self.tree}/{path}").st_mtime_ns for path in before}, moments)

    def test_a_signed_tree_wants_a_word(self):
        for suite, name in (("box", "InRelease"), ("box", "Release.gpg"), ("lab", "InRelease")):
            with self.subTest(suite=suite, name=name):
                self.begin()
                self.sign(suite, name)
                remove(f"{self.tree}/{DEB}")
                remove(f"{self.tree}/index.html")
                self.check_kept_signed(suite)
                self.check_exports(f"{SAME}pool 1 0 0 0\n", "--unsigned")

    def test_a_change_of_a_signed_tree(self):
        self.sign("box")
        self.upload("other", "1.0-1")
        self.check_kept_signed("box")
        self.assertEqual(os.readlink(f"{self.tree}/dists/box"), self.states["box"])
        self.sign("lab")
        self.check_exports(r"waits box \.box\.[0-9a-f]{32}\nsame lab\npool 1 1 0 0\n", "--signed")
        # What is shown is signed, so it is as before.
        self.check_kept_signed("box")
        self.check_exports(r"shown box \.box\.[0-9a-f]{32}\nunsigned box\nsame lab\npool 0 2 0 0\n", "--unsigned")
        # Now lab alone is signed.
        self.check_kept_signed("lab")
        remove(f"{self.tree}/dists/lab/InRelease")
        self.check_exports(f"{SAME}pool 0 2 0 0\n")

    def test_a_signature_that_is_not_shown_wants_no_word(self):
        """What a link outside leads to is not looked at, and neither is a state that the suite does not show."""
        write(f"{self.outside.folder}/folder/InRelease", b"signed")
        self.outside.keep()
        remove(f"{self.tree}/dists/box")
        os.symlink(f"{self.outside.folder}/folder", f"{self.tree}/dists/box")
        write(f"{self.tree}/dists/.lab.{'0' * 32}/InRelease", b"signed")
        self.check_exports(r"shown box .*\nsame lab\npool 0 1 0 0\n")
        self.assertEqual(os.readlink(f"{self.tree}/dists/box"), self.states["box"])

    def test_both_words_are_refused(self):
        self.assertEqual(self.ran("--signed", "--unsigned")[:2], (2, ""))
        serve = ["serve", self.db, "--at", str(self.moment)]
        for words in (["--unsigned"], ["--export", self.tree, "--signed", "--unsigned"]):
            with self.subTest(words=words):
                self.line(2, *serve, *words, "127.0.0.1:9", "1")


class Names(Hostile):
    def setUp(self):
        super().setUp()
        self.begin_anew()
        self.db = f"{self.room}/other.db"

    def make(self, text):
        for name in ("", "-wal", "-journal", "-shm"):
            remove(f"{self.db}{name}")
        self.archive(text)

    def test_components_that_are_named_as_files(self):
        for name in ("Release", "Release.gpg", "InRelease", "index.html"):
            with self.subTest(name=name):
                self.make(f"Codename: box\nArchitectures: amd64 source\nComponents: main {name}\n")
                self.assertEqual(self.ran(), (1, "", f"archive: component {name} is named as a file of the tree\n"))
                self.assertEqual(contents(self.tree), {})

    def test_a_component_that_is_named_by_hash(self):
        self.make("Codename: box\nArchitectures: amd64 source\nComponents: main by-hash\n")
        for flags in ((), ("--by-hash",)):
            self.check_exports(r"(shown box \.box\.[0-9a-f]{32}|same box)\npool 0 0 0 0\n", *flags)
            for text in ("Release", PACKAGES, "main/source/Sources", "by-hash/binary-amd64/Packages", "by-hash/source/Sources"):
                self.assertEqual(self.file(f"dists/box/{text}"), self.show(f"dists/box/{text}"))

    def test_codenames_that_are_names_of_files(self):
        names = "index.html", "Release", "InRelease", "by-hash", "new", "lock"
        self.make("\n".join(f"Codename: {name}\nArchitectures: amd64 source\nComponents: main\n" for name in names))
        shown = "".join(rf"shown {re.escape(name)} \.{re.escape(name)}\.[0-9a-f]{{32}}\n" for name in names)
        self.check_exports(f"{shown}pool 0 0 0 0\n")
        for name in names:
            self.assertEqual(self.file(f"dists/{name}/Release"), self.show(f"dists/{name}/Release"))
        self.check_exports("".join(f"same {re.escape(name)}\n" for name in names) + "pool 0 0 0 0\n", "--by-hash")


class Gone(Hostile):
    """Suites that the configuration has no more."""

    def configure(self, *suites):
        """Has the archive have these suites."""
        text = "\n".join(f"Codename: {it}\nArchitectures: amd64 source\nComponents: main\n" for it in suites)
        write(f"{self.room}/other.conf", text.encode())
        self.line(0, "configure", self.db, *self.at(), f"{self.room}/other.conf")

    def drop(self):
        """Has lab be gone."""
        self.configure("box")

    def names(self):
        return sorted(os.listdir(f"{self.tree}/dists"))

    def test_a_suite_that_is_gone(self):
        """The suite is removed, and what only it named goes by the rule for what is left."""
        self.line(0, "copy", self.db, *self.at(), "box", "lab", "hello")
        self.line(0, "remove", self.db, *self.at(), "box", "hello")
        self.check_exports(r"shown box .*\nshown lab .*\npool 0 1 0 0\n")
        self.line(0, "remove", self.db, *self.at(), "lab", "hello")
        self.drop()
        self.check_exports("(shown box .*|same box)\ngone lab\npool 0 0 1 0\n")
        self.assertEqual([name for name in self.names() if "lab" in name], [])
        self.assertEqual(self.file(DEB), b"hello 1.0-1")
        self.check_exports(r"same box\npool 0 0 [01] [01]\n")
        self.upload("other", "1.0-1")
        self.check_exports(r"shown box .*\npool 1 0 0 [01]\n")
        self.assertFalse(os.path.exists(f"{self.tree}/pool/main/h"))

    def test_what_is_not_of_an_export_stays(self):
        """The link of a suite leads to a state of that suite, or is not the export's own."""
        self.drop()
        for kind in ("link", "link to nothing", "link to a folder", "link to a fifo", "fifo", "folder", "junk"):
            with self.subTest(kind=kind):
                self.begin()
                place = f"{self.tree}/dists/lab"
                plant(kind, place, self.outside.folder)
                number = number_of(place)
                self.check_exports(r"(shown box .*|same box)\npool 0 1 0 0\n")
                self.assertEqual(number_of(place), number)
        for leads in (self.states["box"], f"../dists/{self.states['lab']}", f".lab.{'A' * 32}", "own"):
            with self.subTest(leads=leads):
                self.begin()
                remove(f"{self.tree}/dists/lab")
                os.symlink(leads, f"{self.tree}/dists/lab")
                self.check_exports(r"(shown box .*|same box)\npool 0 1 0 0\n")
                self.assertEqual(os.readlink(f"{self.tree}/dists/lab"), leads)

    def test_a_link_that_is_gone_already(self):
        """The suite is gone all the same, with the folders of its states."""
        self.drop()
        remove(f"{self.tree}/dists/lab")
        self.check_exports(r"(shown box .*|same box)\ngone lab\npool 0 1 0 0\n")
        self.assertNotIn(self.states["lab"], self.names())

    def test_suites_go_by_their_names(self):
        """The folders of all their states go, and no other: a suite that stays may have a codename that begins alike."""
        self.configure("box", "lab", "zeta", "lab.x", "alpha")
        self.check_exports("(shown .*\n|same .*\n){5}pool 0 1 0 0\n")
        write(f"{self.tree}/dists/.lab.{'0' * 32}/Release", b"old")
        for name in (".lab.own", ".lab." + "A" * 32, ".lab." + "0" * 31, ".lab.x." + "0" * 31):
            write(f"{self.tree}/dists/{name}/Release", b"own")
        self.configure("lab.x", "box")
        same = [r"(shown lab\.x .*|same lab\.x)", "(shown box .*|same box)"]
        self.check_exports("\n".join([*same, "gone alpha", "gone lab", "gone zeta", "pool 0 1 0 0\n"]))
        stay = [".lab.own", ".lab." + "A" * 32, ".lab." + "0" * 31, ".lab.x." + "0" * 31, "box", "lab.x"]
        self.assertEqual(self.names(), sorted([*stay, *(os.readlink(f"{self.tree}/dists/{it}") for it in ("box", "lab.x"))]))
        self.configure("box")
        self.check_exports("\n".join([same[1], r"gone lab\.x", "pool 0 1 0 0\n"]))
        self.check_exports("same box\npool 0 1 0 0\n")

    def test_a_link_in_the_folder_of_a_state_that_goes(self):
        """The target of the link stays."""
        os.symlink(f"{self.outside.folder}/folder", f"{self.tree}/dists/{self.states['lab']}/link")
        os.mkfifo(f"{self.tree}/dists/{self.states['lab']}/main/fifo")
        self.drop()
        self.check_exports("(shown box .*|same box)\ngone lab\npool 0 1 0 0\n")
        self.assertEqual([name for name in self.names() if "lab" in name], [])

    @needs("strace")
    def test_the_link_goes_first(self):
        self.drop()
        trace = f"{self.room}/trace"
        under = ["strace", "-f", "-qq", "-y", "-s", "300", "-o", trace, "-e", "trace=unlink,unlinkat,rmdir"]
        ran = subprocess.run([*under, PROGRAM, "export", "--db", self.db, self.tree], capture_output=True, text=True, check=False, timeout=120)
        self.assertEqual(ran.returncode, 0, ran.stderr)
        self.assertIn("gone lab\n", ran.stdout)
        done = [it for it in read(trace).decode().splitlines() if it.endswith(" = 0")]
        calls = [it for it in done if re.search(r'[/"]lab"|\.lab\.|"Sources"|"Packages"', it)]
        self.assertRegex(calls[0], r'[/"]lab"')
        self.assertGreater(len(calls), 1)


class Served(Hostile):
    """None of this stops a server: it logs a line, and answers the next connection at once."""

    @contextlib.contextmanager
    def serving(self, *flags, db=None):
        words = "--export", self.tree, *flags
        with Serving(db or self.db, 100, *words, at=str(self.moment + 1)) as serving:
            yield serving

    def check_goes_on(self, serving, told):
        """A run is answered, and the next connection at once. Then standard error has this, by a pattern."""
        start = time.monotonic()
        self.assertEqual(serving.answer(RUN), replied("200 OK", b""))
        self.assertIn(b"accepted hello_1.0-1_amd64.changes\n", serving.answer(b"GET /verdicts HTTP/1.1\r\n\r\n"))
        self.assertLess(time.monotonic() - start, LIMIT)
        self.assertTrue(serving.is_running())
        self.assertRegex(serving.said()[1], f"^{told}$")
        self.check_outside()

    def test_what_is_replaced_is_not_told(self):
        with self.serving() as serving:
            for place in ("index.html", DEB, f"dists/{self.states['box']}/Release", ".boqitsel/files"):
                for kind in ("link", "fifo"):
                    with self.subTest(place=place, kind=kind):
                        self.begin()
                        plant(kind, f"{self.tree}/{place}", self.outside.folder)
                        self.check_goes_on(serving, "")
                        self.check_fresh()

    def test_what_is_refused_is_told(self):
        with self.serving() as serving:
            told = ""
            for place in ("pool", "dists", ".boqitsel", "pool/main/h", ".boqitsel/lock"):
                for kind in ("link to a folder", "fifo"):
                    with self.subTest(place=place, kind=kind):
                        self.begin()
                        plant(kind, f"{self.tree}/{place}", self.outside.folder)
                        told += f"archive: cannot write {re.escape(self.tree)}/{re.escape(place)}\n"
                        self.check_goes_on(serving, told)
            self.begin()
            remove(f"{self.tree}/index.html")
            self.check_goes_on(serving, told)
            self.check_fresh()

    def test_a_signed_tree(self):
        write(f"{self.tree}/dists/box/InRelease", b"signed")
        with self.serving() as serving:
            self.check_goes_on(serving, "archive: suite box is signed in the tree: give --signed or --unsigned\n")
        remove(f"{self.tree}/index.html")
        with self.serving("--unsigned") as serving:
            self.check_goes_on(serving, "")
        self.assertTrue(os.path.isfile(f"{self.tree}/index.html"))

    def test_a_database_in_the_tree(self):
        self.begin_anew()
        db = f"{self.tree}/index.html"
        for name in ("", "-wal"):
            shutil.copy(f"{self.db}{name}", f"{db}{name}")
        with self.serving(db=db) as serving:
            self.check_goes_on(serving, f"archive: cannot write {re.escape(self.tree)}/index\\.html\n")
            self.check_goes_on(serving, f"(archive: cannot write {re.escape(self.tree)}/index\\.html\n){{2}}")
        self.line(0, "verdicts", db)

    def test_another_name_that_the_database_is_given_later(self):
        """The server has it open by then."""
        with self.serving() as serving:
            told = ""
            self.check_goes_on(serving, told)
            body, number = read(self.db), number_of(self.db)
            for place in ("index.html", DEB, ".boqitsel/files", ".boqitsel/new"):
                with self.subTest(place=place):
                    self.begin()
                    remove(f"{self.tree}/index.html")
                    remove(f"{self.tree}/{place}")
                    os.link(self.db, f"{self.tree}/{place}")
                    told += f"archive: cannot write {re.escape(self.tree)}/{re.escape(place)}\n"
                    self.check_goes_on(serving, told)
                    self.assertEqual((number_of(self.db), number_of(f"{self.tree}/{place}"), read(self.db)), (number, number, body))
                    remove(f"{self.tree}/{place}")

    def test_a_component_that_is_named_as_a_file(self):
        write(f"{self.room}/named.conf", TWO.replace("Components: main", "Components: main Release").encode())
        self.line(0, "configure", self.db, *self.at(), f"{self.room}/named.conf")
        before = contents(self.tree)
        with self.serving() as serving:
            self.check_goes_on(serving, "archive: component Release is named as a file of the tree\n")
        self.assertEqual(contents(self.tree), before)


if __name__ == "__main__":
    main()
