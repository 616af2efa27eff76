"""Tests of what `why` says: of each verdict, and of each part of its rule, what it is about; and of what waits, what it lacks. Each answer is made
here of the bytes that are handed in and of the sentences of docs/FAULTS.md, as lines and as JSON. The program is that of program.py."""
import json
import pathlib
import re

from tests.program import ROOT
from tests.snippets import changed
from tests.test_listing import Archive, digest
from tests.wants import main
from uploads import uploads

DAY = 86_400
NOT_FOUND = (1, "", "archive: not found\n")

CHANGES, DEB, CONTROL = (f"hello_1.0-1_amd64.{it}" for it in ("changes", "deb", "control"))
DSC, TAR = "hello_1.0-1.dsc", "hello_1.0-1.tar.xz"
PLACE = "place pool/main/h/hello"
TAR_BODY = b"tar of hello\n"

SUITES = """Codename: box
Architectures: amd64 source
Components: main extra
AlsoAcceptFor: unstable
Uploaders:
 hello by Bob <bob@example.org>
 other by anybody
 hel* by Cid <cid@example.org>
 * by Ann <ann@example.org>

Codename: lab
Suite: testing
Architectures: amd64
Components: main
Uploaders:
 other by anybody
"""


def sentences():
    """What each verdict means, and what is to be done, as the page on faults has it to the letter. There is nothing to be done about an
    acceptance."""
    page = pathlib.Path(ROOT, "docs/FAULTS.md").read_text(encoding="utf-8")
    rows = re.findall(r"^\| `(?:accepted|refused (\d+))` \| (.*) \| (.*) \|$", page, re.M)
    return {int(number or "0"): (means, todo if number else None) for number, means, todo in rows}


SENTENCES = sentences()


# ---- what is handed in


def package(name="hello", version="1.0-1", body=b"abc", changes=()):
    """A package file and its sidecar, in which some words are others."""
    stem = f"{name}_{version}_amd64"
    control = changed(uploads.CONTROL.format(name=name, version=version), dict(changes))
    return {f"{stem}.deb": body, f"{stem}.control": control.encode()}


def dsc_of(listed, version="1.0-1", changes=()):
    """A .dsc of hello that lists these files, in which some words are others."""
    return (changed(uploads.DSC.format(name="hello", version=version), dict(changes)) + uploads.lists_of(listed)).encode()


def record(listed, version="1.0-1", changes=()):
    """A .changes of hello that lists these files, in which some words are others."""
    return changed(uploads.changes_of("hello", version, listed).decode(), dict(changes)).encode()


# ---- what is to be said of it


def print_of(body):
    """The size and the SHA-256 of a body, as a line has them."""
    return f"{len(body)} {digest('sha256', body)}"


def upload_of(name, body, verdict, **more):
    """An upload as an object, with these keys."""
    none = {"means": None, "todo": None, "today": None, "since": None, "names": [], "lacks": [], "came": [], "ended": []}
    return {"upload": name, "sha256": digest("sha256", body), "verdict": verdict, **none, **more}


def told(first, lines):
    """A line, and those below it."""
    return f"{first}\n" + "".join(f" {line}\n" for line in lines)


def first_of(name, body, verdict):
    """The first line of an upload that was judged."""
    return f"{f'refused {verdict}' if verdict else 'accepted'} {name} {digest('sha256', body)}"


def judged(name, body, verdict, *names, today=None):
    """What is said of an upload that was judged, as lines and as an object. What is named are lines, too: those of an acceptance say what it
    means. If an upload that was refused would be accepted, nothing more is said: its packages were given to no suite."""
    means, todo = SENTENCES[verdict if today is None else today] if today != 0 else (None, None)
    lines = [] if today is None else [f"today {today}"]
    lines += [means, *names, todo] if todo else names
    pairs = [it.split(" ", 1) for it in names]
    return told(first_of(name, body, verdict), lines), upload_of(name, body, verdict, means=means, todo=todo, today=today, names=pairs)


def cleaned(name, body, verdict):
    """The line of an upload whose files are no longer there: nothing is named."""
    means, todo = SENTENCES[verdict]
    lines = [means, "its files were cleaned"] + [todo] * bool(todo)
    return told(first_of(name, body, verdict), lines), upload_of(name, body, verdict, means=means, todo=todo)


# Moments, and how a line says them, as Release has its Date.
DATES = {
    1: "Thu, 01 Jan 1970 00:00:01 UTC",
    2: "Thu, 01 Jan 1970 00:00:02 UTC",
    3: "Thu, 01 Jan 1970 00:00:03 UTC",
    1467436850: "Sat, 02 Jul 2016 05:20:50 UTC",
    4102444799: "Thu, 31 Dec 2099 23:59:59 UTC",
}


def waits(name, body, *found, since=1):
    """What is said of an upload that waits: the moment from which its .changes counts, and of each file a word, its name and its body."""
    lines = [f"since {DATES[since]}"] + ([f"{word} {file} {print_of(it)}" for word, file, it in found] or ["whole"])
    lists = {word: [{"name": file, "size": len(it), "sha256": digest("sha256", it)} for key, file, it in found if key == word] for word in ("lacks", "came", "ended")}
    return told(f"waits {name} {digest('sha256', body)}", lines), upload_of(name, body, None, since=since, **lists)


# ---- what is asked


class Why(Archive):
    CONF = SUITES

    def put(self, files, at=1):
        self.line(0, "put", self.db, "--at", str(at), *(self.file(name, body) for name, body in files.items()))

    def judge(self, verdict, files, body, name=CHANGES, at=1):
        """Puts an upload, and runs the queue, which has this verdict on it and on no other."""
        self.put({**files, name: body}, at)
        said = f"refused {verdict}" if verdict else "accepted"
        self.assertEqual(self.line(0, "run", self.db, "--at", str(at)), f"{said} {name}\n")

    def configure(self, changes):
        self.line(0, "configure", self.db, "--at", "1", self.file("other.conf", changed(self.CONF, changes).encode()))

    def check(self, wanted, *words):
        """What is said by lines and by JSON."""
        self.assertEqual(self.ran("why", "--db", self.db, *words), (0, "".join(text for text, _ in wanted), ""))
        status, printed, errors = self.ran("why", "--db", self.db, "--json", *words)
        self.assertEqual((status, errors), (0, ""))
        self.assertEqual([json.loads(line) for line in printed.splitlines()], [it for _, it in wanted])

    def check_refused(self, verdict, files, body, *names, name=CHANGES):
        """An upload is refused, and this is what the verdict is about."""
        self.judge(verdict, files, body, name)
        self.check([judged(name, body, verdict, *names)], name)


class Refused(Why):
    def test_the_page_has_a_meaning_and_something_to_do_for_each_verdict(self):
        self.assertEqual(sorted(SENTENCES), list(range(10)))
        for means, todo in SENTENCES.values():
            for text in (means, todo or "Nothing."):
                self.assertRegex(text, r"\A[A-Z].*\.\Z")

    def test_1_no_suite_takes_the_distribution(self):
        taken = "taken box box", "taken unstable box", "taken lab lab", "taken testing lab"
        body = record(package(), changes={"Distribution: box": "Distribution: UNRELEASED"})
        self.check_refused(1, package(), body, "distribution UNRELEASED", *taken)

    def test_2_an_architecture_that_the_suite_does_not_keep(self):
        body = record(package(), changes={"Architecture: amd64\n": "Architecture: amd64 i386 arm64\n"})
        self.check_refused(2, package(), body, "architecture i386", "suite box keeps amd64 source")
        body = record(package(), changes={"Architecture: amd64\n": "Architecture: source amd64\n", "Distribution: box": "Distribution: testing"})
        self.check_refused(2, package(), body, "architecture source", "suite lab keeps amd64", name="other.changes")

    def test_3_a_person_whom_no_line_allows_the_source(self):
        eve = {"Changed-By: Ann <ann@example.org>": "Changed-By: Eve <eve@example.org>"}
        rules = "rule hello by Bob <bob@example.org>", "rule hel* by Cid <cid@example.org>", "rule * by Ann <ann@example.org>"
        self.check_refused(3, package(), record(package(), changes=eve), "source hello", "person Eve <eve@example.org>", *rules)

    def test_3_without_a_line_that_speaks_of_the_source(self):
        body = record(package(), changes={"Distribution: box": "Distribution: lab"})
        self.check_refused(3, package(), body, "source hello", "person Ann <ann@example.org>", "rule none")

    def test_3_a_person_with_a_control_character(self):
        body = record(package(), changes={"Changed-By: Ann": "Changed-By: E\x9bve", "Distribution: box": "Distribution: lab"})
        self.check_refused(3, package(), body, "source hello", "person E?ve <ann@example.org>", "rule none")

    def test_4_files_of_two_components(self):
        body = record(package(), changes={f"utils optional {CONTROL}": f"extra/utils optional {CONTROL}"})
        self.check_refused(4, package(), body, f"file {CONTROL} component extra, not main")

    def test_4_a_component_that_the_suite_does_not_have(self):
        body = record(package(), changes={"utils optional ": "contrib/utils optional "})
        self.check_refused(4, package(), body, "component contrib", "suite box has main extra")

    def test_5_each_part(self):
        pair, tar, source = package(), {TAR: TAR_BODY}, {DSC: dsc_of({TAR: TAR_BODY})}
        other = {"old.changes": record({"away.deb": b""})}
        without = {"Architecture: amd64 source\n": "Architecture: amd64\n"}
        rows = [
            ({**pair, **other}, {}, ["file old.changes", "is a .changes"]),
            ({**source, "other.dsc": b"", **tar}, {}, ["file other.dsc", "is a second .dsc"]),
            ({**source, **tar}, without, [f"file {DSC}", "is a .dsc without source"]),
            (pair, {"Architecture: amd64\n": "Architecture: amd64 source\n"}, ["no .dsc with source"]),
            ({DEB: b"abc"}, {}, [f"file {DEB}", f"has no {CONTROL}"]),
            ({CONTROL: pair[CONTROL]}, {}, [f"file {CONTROL}", f"has no {DEB}"]),
            ({**pair, **tar}, {}, [f"file {TAR}", "is a source file without source"]),
            # Of several parts the first counts, whatever is listed first.
            ({**tar, DEB: b"abc", **other}, {}, ["file old.changes", "is a .changes"]),
            ({CONTROL: pair[CONTROL], "b_1_all.deb": b"b", "a_1_all.deb": b"a"}, {}, ["file b_1_all.deb", "has no b_1_all.control"]),
        ]
        for number, (files, changes, names) in enumerate(rows):
            with self.subTest(names, number=number):
                self.check_refused(5, files, record(files, changes=changes), *names, name=f"part{number}.changes")

    def test_6_each_part(self):
        tar, other, more = {TAR: TAR_BODY}, b"another tar\n", "hello.tar.xz"
        signed = {"Format: ": "-----BEGIN PGP SIGNED MESSAGE-----\nHash: SHA512\n\nFormat: "}
        rows = [
            (dsc_of(tar, changes={"3.0 (quilt)": "2.0"}), {}, "fault C4"),
            (dsc_of(tar, changes={"Source: hello\n": ""}), {}, "fault C2 Source"),
            (dsc_of(tar, changes=signed), {}, "fault C1 P3:1"),
            (b"", {}, "fault C1 P8"),
            (dsc_of(tar).replace(b" %d " % len(TAR_BODY), b" 4194305 "), {}, "fault C9 S5"),
            (dsc_of(tar, changes={"Source: hello": "Source: other"}), {}, "source other, not hello"),
            (dsc_of(tar, changes={"\nVersion: 1.0-1": "\nVersion: 2.0-1"}), {}, "version 2.0-1, not 1.0-1"),
            (dsc_of({**tar, DEB: b"abc"}), {}, f"lists {DEB}"),
            (dsc_of(tar), {more: other}, f"does not list {more}"),
            (dsc_of({TAR: other}), {}, f"lists {TAR} as {print_of(other)}, not {print_of(TAR_BODY)}"),
            # Of several parts the first counts.
            (dsc_of({DEB: b"abc"}, changes={"Source: hello": "Source: other", "\nVersion: 1": "\nVersion: 2"}), {}, "source other, not hello"),
            (dsc_of({TAR: other, DEB: b"abc"}), {more: other}, f"lists {DEB}"),
        ]
        for number, (dsc, listed, named) in enumerate(rows):
            with self.subTest(named, number=number):
                files = {DSC: dsc, **tar, **listed}
                self.check_refused(6, files, record(files), f"file {DSC}", named, name=f"part{number}.changes")

    def test_6_a_dsc_of_another_name(self):
        files = {"hello_1.0.dsc": dsc_of({TAR: TAR_BODY}), TAR: TAR_BODY}
        self.check_refused(6, files, record(files), "file hello_1.0.dsc", f"is not named {DSC}")

    def test_7_each_part(self):
        i386 = {it.replace("amd64", "i386"): body for it, body in package(changes={"Architecture: amd64": "Architecture: i386"}).items()}
        other = {"Maintainer: ": "Source: other\nMaintainer: "}
        rows = [
            (package(changes={"Version: 1.0-1\n": ""}), CONTROL, "fault C2 Version"),
            (package(changes={"Priority: ": "Filename: hello.deb\nPriority: "}), CONTROL, "fault C10"),
            (package(changes={"Maintainer: ": "Package: hello\nMaintainer: "}), CONTROL, "fault C1 P7:4"),
            (package(changes={"Version: 1.0-1": "Version: 1:1.0-2"}), CONTROL, "is not named hello_1.0-2_amd64.control"),
            (i386, "hello_1.0-1_i386.control", "architecture i386 is not in the .changes"),
            (package(changes=other), CONTROL, "source other, not hello"),
            ({**package(), **package(version="1.0-2")}, "hello_1.0-2_amd64.control", f"is the second of hello amd64, beside {CONTROL}"),
            # Of several parts the first counts, of the first file that has one; two of a kind come last.
            ({**i386, **package(changes=other)}, "hello_1.0-1_i386.control", "architecture i386 is not in the .changes"),
            ({**package(), **package(version="1.0-2"), **package("bee", changes=other)}, "bee_1.0-1_amd64.control", "source other, not hello"),
        ]
        for number, (files, file, named) in enumerate(rows):
            with self.subTest(named, number=number):
                self.check_refused(7, files, record(files), f"file {file}", named, name=f"part{number}.changes")

    def test_8_a_file_that_is_nowhere(self):
        files = {DSC: dsc_of({TAR: TAR_BODY})}
        self.check_refused(8, files, record(files), f"file {TAR} {print_of(TAR_BODY)}", f"{PLACE}/{TAR}", "there nothing")

    def test_8_a_file_whose_place_has_other_contents(self):
        files = {DSC: dsc_of({TAR: TAR_BODY}), TAR: TAR_BODY}
        self.judge(0, files, record(files), "first.changes")
        other = b"another tar\n"
        files = {"hello_1.0-2.dsc": dsc_of({TAR: other}, "1.0-2")}
        names = f"file {TAR} {print_of(other)}", f"{PLACE}/{TAR}", f"there {print_of(TAR_BODY)}"
        self.check_refused(8, files, record(files, "1.0-2"), *names)

    def test_9_a_place_where_other_contents_are(self):
        self.judge(0, package(), record(package()), "first.changes")
        files = package(body=b"abcd")
        self.check_refused(9, files, record(files), f"file {DEB} {print_of(b'abcd')}", f"{PLACE}/{DEB}", f"there {print_of(b'abc')}")


class Accepted(Why):
    def test_what_is_shown_of_it(self):
        """All of it, then less with each newer version and each removal; and of an older version nothing."""
        lib = package("libhello", body=b"lib", changes={"Maintainer: ": "Source: hello\nMaintainer: "})
        files = {DSC: dsc_of({TAR: TAR_BODY}), TAR: TAR_BODY, **package(), **lib}
        body = record(files, changes={"Distribution: box": "Distribution: unstable"})
        self.judge(0, files, body)
        source, binary, library = "box hello 1.0-1 source", "box hello 1.0-1 amd64", "box libhello 1.0-1 amd64"
        self.check([judged(CHANGES, body, 0, f"shown {source}", f"shown {binary}", f"shown {library}")], CHANGES)
        newer = package(version="1.0-2")
        self.judge(0, newer, record(newer, "1.0-2"), "newer.changes")
        self.check([judged(CHANGES, body, 0, f"shown {source}", f"instead 1.0-2 {binary}", f"shown {library}")], CHANGES)
        self.line(0, "remove", self.db, "--at", "1", "box", "libhello")
        self.check([judged(CHANGES, body, 0, f"shown {source}", f"instead 1.0-2 {binary}", f"gone {library}")], CHANGES)
        older = package(version="0.9")
        text = record(older, "0.9")
        self.judge(0, older, text, "older.changes")
        self.check([judged("older.changes", text, 0, "instead 1.0-2 box hello 0.9 amd64")], "older.changes")

    def test_what_another_suite_shows_counts_for_nothing(self):
        body = record(package())
        self.judge(0, package(), body)
        self.line(0, "copy", self.db, "--at", "1", "box", "lab", "hello")
        self.line(0, "remove", self.db, "--at", "1", "box", "hello")
        self.check([judged(CHANGES, body, 0, "gone box hello 1.0-1 amd64")], CHANGES)


class Today(Why):
    """What was judged otherwise than it would be now."""

    def test_a_refused_upload_that_would_be_accepted(self):
        body = record(package(), changes={"Distribution: box": "Distribution: UNRELEASED"})
        self.judge(1, package(), body)
        self.configure({"AlsoAcceptFor: unstable": "AlsoAcceptFor: UNRELEASED"})
        self.check([judged(CHANGES, body, 1, today=0)], CHANGES)

    def test_a_refused_upload_that_would_be_refused_otherwise(self):
        body = record(package(), changes={"Distribution: box": "Distribution: UNRELEASED", "Architecture: amd64\n": "Architecture: amd64 i386\n"})
        self.judge(1, package(), body)
        self.configure({"AlsoAcceptFor: unstable": "AlsoAcceptFor: UNRELEASED"})
        self.check([judged(CHANGES, body, 1, "architecture i386", "suite box keeps amd64 source", today=2)], CHANGES)

    def test_the_same_verdict_is_about_what_is_there_now(self):
        body = record(package(), changes={"Distribution: box": "Distribution: UNRELEASED"})
        self.judge(1, package(), body)
        self.configure({"AlsoAcceptFor: unstable\n": "", "Suite: testing": "Suite: unstable"})
        taken = "taken box box", "taken lab lab", "taken unstable lab"
        self.check([judged(CHANGES, body, 1, "distribution UNRELEASED", *taken)], CHANGES)

    def test_other_contents_that_went_and_came(self):
        """The first is accepted and removed. Then the second, which was refused 9, would be accepted. Once a third has the place, both are 9."""
        bodies = {"first.changes": b"abc", "second.changes": b"abcd", "third.changes": b"abcde"}
        files = {name: package(body=it) for name, it in bodies.items()}
        texts = {name: record(it) for name, it in files.items()}
        for verdict, name in ((0, "first.changes"), (9, "second.changes")):
            self.judge(verdict, files[name], texts[name], name)
        self.line(0, "remove", self.db, "--at", "1", "box", "hello")
        self.check([judged("first.changes", texts["first.changes"], 0, "gone box hello 1.0-1 amd64")], "first.changes")
        self.check([judged("second.changes", texts["second.changes"], 9, today=0)], "second.changes")
        self.judge(0, files["third.changes"], texts["third.changes"], "third.changes")
        for name, verdict, today in (("first.changes", 0, 9), ("second.changes", 9, None)):
            names = f"file {DEB} {print_of(bodies[name])}", f"{PLACE}/{DEB}", f"there {print_of(b'abcde')}"
            self.check([judged(name, texts[name], verdict, *names, today=today)], name)


class Larger(Why):
    """Files of more than 4 MiB."""

    CONF = SUITES.replace("Codename: box\n", "Codename: box\nMaxFileSize: 5\n")

    def test_a_tarball_that_is_too_large_by_now(self):
        """Its size was read when the upload was accepted. It is not read any more under a lower limit, and an upload that waits is refused."""
        large = {TAR: bytes(5 << 20)}
        files = {DSC: dsc_of(large), **large}
        body, other = record(files), record(files, changes={"Urgency: low": "Urgency: high"})
        shown = "shown box hello 1.0-1 source"
        self.judge(0, files, body)
        self.check([judged(CHANGES, body, 0, shown)], CHANGES)
        self.put({"other.changes": other})
        self.configure({"MaxFileSize: 5\n": ""})
        named = f"file {DSC}", "fault C9 S5"
        self.check([judged(CHANGES, body, 0, *named, today=6)], CHANGES)
        self.assertEqual(self.line(0, "run", self.db, "--at", "1"), "refused 6 other.changes\n")
        self.check([judged("other.changes", other, 6, *named)], "other.changes")
        self.configure({})
        self.check([judged(CHANGES, body, 0, shown)], CHANGES)
        self.check([judged("other.changes", other, 6, today=0)], "other.changes")

    def test_a_dsc_that_lists_a_larger_file(self):
        """It is read up to the limit: to the byte."""
        for size, verdict, named in ((5242880, 8, None), (5242881, 6, "fault C9 S5")):
            dsc = dsc_of({TAR: TAR_BODY}).replace(b" %d " % len(TAR_BODY), b" %d " % size)
            body, name = record({DSC: dsc}), f"size{size}.changes"
            self.judge(verdict, {DSC: dsc}, body, name)
            names = (f"file {DSC}", named) if named else (f"file {TAR} {size} {digest('sha256', TAR_BODY)}", f"{PLACE}/{TAR}", "there nothing")
            self.check([judged(name, body, verdict, *names)], name)


class Cleaned(Why):
    CONF = SUITES.replace("Codename: box\n", "Codename: box\nKeepDays: 1\n")

    def test_what_was_judged_and_cleaned(self):
        bad = record(package(), changes={"Distribution: box": "Distribution: UNRELEASED"})
        good = record(package())
        self.judge(1, package(), bad, "bad.changes")
        self.judge(0, package(), good, "good.changes")
        # What has ended and was not cleaned is still there.
        shown = judged("good.changes", good, 0, "shown box hello 1.0-1 amd64")
        self.check([shown], "--at", str(10 * DAY), "good.changes")
        self.line(0, "clean", self.db, "--at", str(1 + DAY))
        self.check([cleaned("bad.changes", bad, 1)], "bad.changes")
        self.check([cleaned("good.changes", good, 0)], "good.changes")

    def test_a_sidecar_alone_is_cleaned(self):
        self.put(package())
        body = record(package(), changes={"Distribution: box": "Distribution: UNRELEASED"})
        self.judge(1, {}, body, at=2)
        self.assertEqual(self.line(0, "clean", self.db, "--at", str(1 + DAY)), "2\n")
        self.check([cleaned(CHANGES, body, 1)], CHANGES)

    def test_a_package_file_that_is_cleaned_is_not_wanted(self):
        files = package()
        self.put({DEB: files.pop(DEB)})
        body = record(package(), changes={"Architecture: amd64\n": "Architecture: i386\n"})
        self.judge(2, files, body, at=2)
        self.assertEqual(self.line(0, "clean", self.db, "--at", str(1 + DAY)), "1\n")
        self.check([judged(CHANGES, body, 2, "architecture i386", "suite box keeps amd64 source")], CHANGES)


class Waiting(Why):
    CONF = Cleaned.CONF

    def test_nothing_waits(self):
        self.check([])
        self.judge(0, package(), record(package()))
        self.check([])
        self.check([], "--at", "1")

    def test_what_one_lacks(self):
        files = package()
        body = record(files)
        self.put({CHANGES: body})
        wanted = [waits(CHANGES, body, *(("lacks", name, files[name]) for name in sorted(files)))]
        self.check(wanted, CHANGES)
        self.check(wanted)
        self.put({CONTROL: files[CONTROL]})
        self.check([waits(CHANGES, body, ("lacks", DEB, b"abc"))], CHANGES)
        self.put({DEB: b"abc"})
        self.check([waits(CHANGES, body)], CHANGES)
        self.check([waits(CHANGES, body)])

    def test_what_came_instead(self):
        """Each other contents, in the order in which they came first; what came under another name is no matter."""
        files = package()
        body = record(files)
        self.put({CHANGES: body, DEB: b"second"})
        self.put({DEB: b"first", "other.deb": b"abc"})
        self.put({DEB: b"second"}, at=3)
        came = ("lacks", DEB, b"abc"), ("came", DEB, b"second"), ("came", DEB, b"first")
        self.check([waits(CHANGES, body, ("lacks", CONTROL, files[CONTROL]), *came)], CHANGES)
        self.put({CONTROL: b"x"})
        self.check([waits(CHANGES, body, ("lacks", CONTROL, files[CONTROL]), ("came", CONTROL, b"x"), *came)], CHANGES)
        self.put({DEB: b"abc"})
        self.check([waits(CHANGES, body, ("lacks", CONTROL, files[CONTROL]), ("came", CONTROL, b"x"))], CHANGES)

    def test_what_ended(self):
        """At the moment 1 come the right .deb and a wrong one, at 2 another wrong one and the rest: a file counts for a day."""
        files = package()
        body = record(files)
        self.put({DEB: b"abc"})
        self.put({DEB: b"ended"})
        self.put({CHANGES: body, CONTROL: files[CONTROL], DEB: b"counts"}, at=2)
        self.check([waits(CHANGES, body, since=2)], CHANGES)
        self.check([waits(CHANGES, body, since=2)], "--at", str(DAY), CHANGES)
        for words in ([], [CHANGES]):
            self.check([waits(CHANGES, body, ("ended", DEB, b"abc"), ("came", DEB, b"counts"), since=2)], "--at", str(DAY + 1), *words)
        self.check([], "--at", str(DAY + 2))
        self.assertEqual(self.ran("why", "--db", self.db, "--at", str(DAY + 2), CHANGES), NOT_FOUND)
        # What was cleaned counts as if it had not come, and nothing ends if no moment is given.
        self.line(0, "clean", self.db, "--at", str(DAY + 1))
        self.check([waits(CHANGES, body, ("lacks", DEB, b"abc"), ("came", DEB, b"counts"), since=2)], CHANGES)
        self.put({DEB: b"abc"}, at=DAY + 1)
        self.check([waits(CHANGES, body, since=2)], "--at", str(DAY + 1))

    def test_all_that_wait_are_in_the_order_of_judging(self):
        """By their names, and those of one name by their digests; whichever of them came first."""
        one, other = record(package()), record(package(), changes={"Urgency: low": "Urgency: high"})
        first, second = sorted((one, other), key=lambda it: digest("sha256", it))
        self.put({"zebra.changes": second})
        self.put({"ant.changes": one})
        self.put({"zebra.changes": first})
        self.put({"ant.changes": one}, at=3)
        files = [("lacks", name, it) for name, it in sorted(package().items())]
        wanted = [waits("ant.changes", one, *files, since=3), waits("zebra.changes", first, *files), waits("zebra.changes", second, *files)]
        self.check(wanted)
        self.check(wanted[1:], "zebra.changes")
        self.check(wanted, "--at", str(DAY))
        self.check(wanted[:1], "--at", str(DAY + 2))

    def test_since_when_one_waits(self):
        """The moment of its .changes, the greatest at which that came; not that of a file that it lists, nor of an earlier question."""
        files = package()
        body = record(files)
        self.put({CONTROL: files[CONTROL]}, at=1467436840)
        self.put({CHANGES: body}, at=1467436850)
        self.put({DEB: b"abc"}, at=1467436852)
        for words in ([], ["--at", "1"], ["--at", "1467436860"]):
            self.check([waits(CHANGES, body, since=1467436850)], *words)
        self.put({CHANGES: body}, at=2)
        self.check([waits(CHANGES, body, since=1467436850)])
        self.put({CHANGES: body, "other.changes": body}, at=4102444799)
        self.check([waits(CHANGES, body, since=4102444799), waits("other.changes", body, since=4102444799)])

    def test_one_name_that_waits_and_was_judged(self):
        """What waits comes first, then what was judged, in the order of judging."""
        bad = [record(package(), changes={"Distribution: box": f"Distribution: bad{number}"}) for number in (2, 1)]
        for body in bad:
            self.judge(1, package(), body)
        more = {**package(), **package("bee", changes={"Maintainer: ": "Source: hello\nMaintainer: "})}
        body = record(more)
        self.put({CHANGES: body})
        lacks = [("lacks", name, it) for name, it in sorted(more.items()) if name.startswith("bee")]
        taken = "taken box box", "taken unstable box", "taken lab lab", "taken testing lab"
        wanted = [waits(CHANGES, body, *lacks)]
        self.check(wanted)
        for number, it in zip((2, 1), bad):
            wanted.append(judged(CHANGES, it, 1, f"distribution bad{number}", *taken))
        self.check(wanted, CHANGES)


class NotFound(Why):
    def test_a_name_that_never_came(self):
        self.judge(0, package(), record(package()))
        for name in ("other.changes", DEB, CONTROL, "hello", "", f"./{CHANGES}"):
            for words in ([], ["--json"], ["--at", "1"]):
                with self.subTest(name, words=words):
                    self.assertEqual(self.ran("why", "--db", self.db, *words, name), NOT_FOUND)

    def test_words_that_are_no_command_line(self):
        for words in (["--at", "4102444800"], ["--at", "x"], ["--at"], [CHANGES, CHANGES], ["--strict"]):
            with self.subTest(words):
                status, printed, errors = self.ran("why", "--db", self.db, *words)
                self.assertEqual((status, printed), (2, ""))
                self.assertTrue(errors)
        self.assertEqual(self.ran("why", CHANGES)[:2], (2, ""))
        self.check([], "--at", "4102444799")

    def test_a_file_that_is_no_archive(self):
        self.assertEqual(self.ran("why", "--db", f"{self.folder}/none.db", CHANGES), (1, "", "archive: K4\n"))


if __name__ == "__main__":
    main()
