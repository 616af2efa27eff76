"""Tests of docs/USING.md and docs/OPERATING.md with the built program: the texts that are set in there are run by a shell as they are, with
addresses of the test's own, and what the pages say of copies, of the file and of answers is tried. The program is that of program.py. If curl,
dput, apt-get, sqlite3 or dpkg-deb is not there, the test says that it was skipped."""
import contextlib
import glob
import gzip
import os
import pathlib
import re
import shlex
import shutil
import socket
import subprocess
import threading
import time

from tests import snippets
from tests.ports import free_port
from tests.program import LONG, PROGRAM, mounted, put_of
from tests.snippets import ROOT, built, commands_of, snippet
from tests.test_configurations import arm64_upload
from tests.test_upload import Proxy
from tests.wants import main, needs, needs_dput, needs_file, needs_root
from uploads import uploads

HELLO = uploads.Package("hello", source=True)
CHANGES = "hello_1.0-1_amd64.changes"
PACKAGES = "dists/box/main/binary-amd64/Packages"
# 2016-07-02 05:20:50 UTC.
MOMENT = 1_467_436_850
# The seconds of 90 days.
DAYS = 90 * 86_400


def hello(version):
    """The package hello of this version, with its source."""
    return uploads.Package("hello", version=version, source=True)


def unpacked(folder, version, distribution):
    """Writes to a folder what `dpkg-buildpackage -b` would of the session's package. Nothing in its .deb is compressed, so that each machine
    makes the same bytes."""
    control = f"Package: hello\nVersion: {version}\nArchitecture: amd64\nMaintainer: Ann <ann@example.org>\nDescription: greets\n"
    members = {"control.tar": gzip.decompress(uploads.tar_of({"./control": control.encode()})), "data.tar": gzip.decompress(uploads.tar_of({}))}
    deb, stem = uploads.ar_of({"debian-binary": b"2.0\n", **members}), f"{folder}/hello_{version}_amd64"
    pathlib.Path(f"{stem}.deb").write_bytes(deb)
    text = uploads.changes_of("hello", version, {f"hello_{version}_amd64.deb": deb}).decode()
    pathlib.Path(f"{stem}.changes").write_text(snippets.changed(text, {"Distribution: box": f"Distribution: {distribution}"}), encoding="ascii")


def session(text):
    """The command lines of a session, each with what it prints."""
    return [(command, printed) for command, _, printed in (it.partition("\n") for it in re.split(r"^\$ ", text, flags=re.M)[1:])]


@needs_file(PROGRAM)
class Case(snippets.Case):
    def made(self, changes=(), told=""):
        """Makes the archive of the page at the moment 1, with other words in its configuration. It says this on standard error."""
        self.room.write("work/box.conf", snippet("configuration", changes))
        self.assertEqual(self.room.run("archive init --db box.db --at 1 box.conf"), (0, "", told))

    def made_with_days(self):
        """Makes the archive of the page at the moment 1, with files that count for 90 days."""
        self.room.write("work/box.conf", snippet("configuration") + "KeepDays: 90\n")
        self.shell("rm -f box.db*; archive init --db box.db --at 1 box.conf")

    def made_with_lab(self):
        """Makes the archive of the page with a second suite, lab, that keeps what box keeps."""
        lab = "\nCodename: lab\nArchitectures: amd64 source\nComponents: main\n"
        self.room.write("work/box.conf", snippet("configuration") + lab)
        self.shell("rm -f box.db*; archive init --db box.db --at 1 box.conf")

    def made_with_three(self):
        """Makes the archive of the page that has testing, stable and previous. Its testing takes the uploads of the tests, too."""
        self.room.write("work/box.conf", snippet("three suites", {"AlsoAcceptFor: unstable": "AlsoAcceptFor: unstable box"}))
        self.shell("archive init --db box.db --at 1 box.conf")

    def ready(self, package=HELLO, folder="ready"):
        """Makes the upload of a package, by with_sidecars. Its paths are in the file `files`."""
        self.shell(f"with_sidecars {built(self.room.folder, package)} {folder} > files")

    def serve(self, *words, port=None):
        """Serves the archive, at a port that is free if none is named, and answers it."""
        port = port or free_port()
        line = ["archive", "serve", "--db", "box.db", "--at", str(int(time.time())), *words, f"127.0.0.1:{port}", "1000"]
        self.process = self.room.start(line, port=port)
        return port

    def wait_for(self, pattern):
        """Waits for what a server writes after a reply: until this pattern finds it in what programs printed. Answers all of that."""
        end = time.monotonic() + LONG
        while not re.search(pattern, self.room.read("told")):
            self.assertLess(time.monotonic(), end, self.room.read("told"))
            time.sleep(0.05)
        return self.room.read("told")

    def names(self):
        return [os.path.basename(path) for path in self.room.read("work/files").split()]

    def fails(self, text):
        """Runs a text that fails. Answers the status, and all that it prints."""
        status, printed, told = self.room.run(text)
        self.assertNotEqual(status, 0, printed + told)
        return status, printed + told


class Commands(Case):
    @needs("dpkg-deb")
    def test_a_session(self):
        """Each command of the page's session prints what stands below it, byte for byte. Each has a moment of its own."""
        self.room.write("work/box.conf", snippet("configuration"))
        unpacked(self.room.folder, "1.0-1", "unstable")
        unpacked(self.room.folder, "1.0-2", "UNRELEASED")
        for number, (command, printed) in enumerate(session(snippet("session"))):
            self.assertEqual(self.room.run(command.replace("$(date +%s)", str(MOMENT + number))), (0, printed, ""), command)

    @needs("make", "dpkg-deb")
    def test_the_programs_are_installed(self):
        prefix = f"{self.room.folder}/prefix"
        self.shell(f"make -s install PREFIX={prefix} PROGRAM={os.path.abspath(PROGRAM)}", cwd=ROOT)
        self.assertEqual(sorted(os.listdir(f"{prefix}/bin")), ["adopt", "archive", "backup", "upload", "with_sidecars"])
        self.assertEqual(self.shell(f"{prefix}/bin/archive compare 1.0 1.1"), "less\n")
        self.assertIn("with_sidecars [--section SECTION] [--most N] FILE.changes.. FOLDER", self.shell(f"{prefix}/bin/with_sidecars --help"))
        self.assertIn("upload URL FILE.changes", self.shell(f"{prefix}/bin/upload --help"))

    def test_the_commands_are_those_of_the_program(self):
        listed = set(re.findall(r"^  (\w+)  ", self.shell("archive --help"), re.M)) - {"help"}
        lines = [line.partition("#")[0].split() for line in snippet("commands").splitlines() if line.startswith("archive ")]
        self.assertEqual({line[1] for line in lines}, listed)
        for _, word, *words in lines:
            told = self.shell(f"archive {word} --help")
            usage = re.search(r"^Usage: archive \w+(.*)$", told, re.M)[1].replace("[OPTIONS]", "")
            wanted = re.sub(r"\[--[^]]*\] ?", "", " ".join(words))
            self.assertEqual(re.sub(r"[<>]", "", usage).replace("...", "..").replace("]..", "..]").split(), wanted.split())
            for option in re.findall(r"--\w+", " ".join(words)):
                self.assertIn(option, told)

    @needs("dpkg-deb")
    def test_a_list_is_done_over_one_opening(self):
        self.made()
        self.ready()
        names = self.names()
        self.assertEqual(self.shell(snippet("batch")), "".join(f"new {it}\n" for it in names) + f"accepted {CHANGES}\n")
        piped = snippet("batch", {" > list\narchive": " | archive", '" list': '" -'})
        self.assertEqual(self.shell(piped), "".join(f"again {it}\n" for it in names))

    def test_a_moment_never_falls(self):
        now = int(time.time())
        for last, wanted in ((None, now), (now - 1000, now), (now + 1000, now + 1000)):
            if last:
                self.room.write("work/moment", f"{last}\n")
            printed = self.shell(f'{snippet("moment")}echo "$at"')
            self.assertEqual(printed, self.room.read("work/moment"))
            self.assertIn(int(printed) - wanted, range(600))


class Rules(Case):
    """What the page says of configurations, verdicts and copies."""

    def judged(self, package=HELLO, folder="ready", at="$(date +%s)"):
        self.ready(package, folder)
        self.shell(f"archive put --db box.db --at {at} $(cat files)")
        return self.shell(f"archive run --db box.db --at {at}")

    @needs("dpkg-deb")
    def test_a_misspelt_field_lets_everybody_in(self):
        others = {"* by Ann <ann@example.org>": "* by Bob <bob@example.org>", "hello by anybody": "hallo by anybody"}
        slip = "archive: passed over Uploader in box, did you mean Uploaders\n"
        for words, told, verdict in ((others, "", "refused 3"), ({**others, "Uploaders:": "Uploader:"}, slip, "accepted")):
            with self.subTest(verdict):
                self.room = snippets.Room()
                self.addCleanup(self.room.close)
                self.made(words, told)
                self.assertEqual(self.judged(), f"{verdict} {CHANGES}\n")

    @needs("dpkg-deb")
    def test_what_is_accepted_need_not_be_shown(self):
        self.made()
        for version in ("2.0-1", "1.0-1"):
            judged = self.judged(uploads.Package("hello", version=version), f"ready{version}")
            self.assertEqual(judged, f"accepted hello_{version}_amd64.changes\n")
        shown = self.shell(f"archive show --db box.db {PACKAGES}")
        self.assertEqual(re.findall("^Version: (.*)$", shown, re.M), ["2.0-1"])

    @needs("dpkg-deb")
    def test_a_copy_asks_no_rule(self):
        self.made()
        lab = "\nCodename: lab\nArchitectures: amd64 source\nComponents: main\nUploaders:\n * by Nobody <nobody@example.org>\n"
        self.room.write("work/box.conf", snippet("configuration") + lab)
        self.shell("rm box.db*; archive init --db box.db --at 1 box.conf")
        self.judged()
        self.assertEqual(self.shell("archive copy --db box.db --at $(date +%s) box lab hello"), "2\n")

    @needs("dpkg-deb")
    def test_a_whole_suite_is_copied(self):
        self.made_with_lab()
        self.judged()
        self.assertEqual(self.shell(snippet("promote")), "2 hello\n")
        self.assertEqual(self.shell(snippet("promote")), "0 hello\n")
        status, printed, told = self.room.run("archive promote --db box.db --at 4000000000 box lab world hello")
        self.assertEqual((status, printed, told), (1, "0 hello\nrefused Q8 world\n", ""))

    @needs("dpkg-deb")
    def test_a_package_is_taken_out_and_brought_back(self):
        self.made()
        self.judged()
        self.assertEqual(self.shell(snippet("remove")), "2\n")
        self.assertEqual(self.shell(f"archive show --db box.db {PACKAGES}"), "")
        self.assertEqual(self.judged(), "")
        self.assertEqual(self.shell(f"archive show --db box.db {PACKAGES}"), "")
        self.assertEqual(self.shell(snippet("again")), "new again.changes\naccepted again.changes\n")
        self.assertIn("\nVersion: 1.0-1\n", self.shell(f"archive show --db box.db {PACKAGES}"))

    @needs("dpkg-deb")
    def test_going_back_to_an_older_version(self):
        self.made()
        for version in ("0.9-1", "1.0-1"):
            self.judged(uploads.Package("hello", version=version, source=True), f"ready{version}")
        self.shell(snippet("remove"))
        older = {"ready/hello_1.0-1": "ready0.9-1/hello_0.9-1"}
        self.assertEqual(self.shell(snippet("again", older)), "new again.changes\naccepted again.changes\n")
        shown = self.shell(f"archive show --db box.db {PACKAGES}")
        self.assertEqual(re.findall("^Version: (.*)$", shown, re.M), ["0.9-1"])

    def versions(self, suite):
        """The versions of hello that a suite shows for amd64."""
        shown = self.shell(f"archive show --db box.db dists/{suite}/main/binary-amd64/Packages")
        return re.findall("^Version: (.*)$", shown, re.M)

    @needs("dpkg-deb")
    def test_an_older_version_does_not_come_to_a_suite_that_promotions_fill(self):
        self.made_with_three()
        for version in ("1.0-1", "1.1-1"):
            self.judged(hello(version), f"ready{version}")
            self.shell("archive promote --db box.db --at $(date +%s) testing stable")
        # As the page says that it does not help.
        self.shell("archive remove --db box.db --at $(date +%s) stable hello")
        again = {"ready/hello_1.0-1": "ready1.0-1/hello_1.0-1"}
        self.assertEqual(self.shell(snippet("again", again)), "new again.changes\naccepted again.changes\n")
        self.assertEqual([self.versions(it) for it in ("testing", "stable")], [["1.1-1"], []])
        # And as it says what helps if no suite has the older one.
        self.shell("archive remove --db box.db --at $(date +%s) testing hello")
        again |= {"again.changes\narchive put": "new.changes\narchive put", "again.changes\narchive run": "new.changes\narchive run"}
        self.assertEqual(self.shell(snippet("again", again)), "new new.changes\naccepted new.changes\n")
        self.shell("archive promote --db box.db --at $(date +%s) testing stable hello")
        newer = {"ready/hello_1.0-1": "ready1.1-1/hello_1.1-1", "again.changes\narchive put": "newer.changes\narchive put"}
        newer["again.changes\narchive run"] = "newer.changes\narchive run"
        self.assertEqual(self.shell(snippet("again", newer)), "new newer.changes\naccepted newer.changes\n")
        self.assertEqual([self.versions(it) for it in ("testing", "stable")], [["1.1-1"], ["1.0-1"]])

    @needs("dpkg-deb")
    def test_testing_and_stable(self):
        self.made_with_three()
        self.judged(hello("1.0-1"), "ready1.0-1")
        self.assertEqual(self.shell(snippet("promote to stable")), "2 hello\n")
        self.judged(hello("1.1-1"), "ready1.1-1")
        # No upload is taken from anybody in the suites that promotions fill.
        self.ready(hello("1.2-1"), "ready1.2-1")
        path = pathlib.Path(self.room.work, "ready1.2-1/hello_1.2-1_amd64.changes")
        path.write_text(snippets.changed(path.read_text(), {"Distribution: box": "Distribution: stable"}))
        self.shell("archive put --db box.db --at $(date +%s) $(cat files)")
        self.assertEqual(self.shell("archive run --db box.db --at $(date +%s)"), f"refused 3 {path.name}\n")
        self.assertEqual(self.shell(snippet("promote to stable")), "2 hello\n2 hello\n")
        self.assertEqual([self.versions(it) for it in ("testing", "stable", "previous")], [["1.1-1"], ["1.1-1"], ["1.0-1"]])
        printed = self.shell(snippet("go back"))
        self.assertEqual(printed, "Package: hello\nVersion: 1.0-1\n2\n2\n")
        self.assertEqual([self.versions(it) for it in ("testing", "stable", "previous")], [["1.1-1"], ["1.0-1"], ["1.0-1"]])
        # Some packages alone, of which stable shows one that previous gets.
        self.assertEqual(self.shell("archive promote --db box.db --at $(date +%s) stable previous hello; archive promote --db box.db --at $(date +%s) testing stable hello"), "0 hello\n2 hello\n")
        self.assertEqual(self.room.run("archive promote --db box.db --at $(date +%s) stable previous world")[:2], (1, "refused Q8 world\n"))
        self.shell(snippet("go back"))
        # If there is no version to go back to, nothing is taken out.
        self.shell("archive remove --db box.db --at $(date +%s) previous hello")
        self.fails(snippet("go back"))
        self.assertEqual(self.versions("stable"), ["1.0-1"])

    @needs("dpkg-deb")
    def test_what_counts_no_more_is_taken_away(self):
        self.made_with_days()
        self.judged(at=1)
        names, shown = self.names(), self.shell(f"archive show --db box.db {PACKAGES}")
        for moment, count in ((DAYS, 0), (1 + DAYS, len(names)), (1 + DAYS, 0)):
            self.assertEqual(self.shell(snippet("clean", {'"$(date +%s)"': str(moment)})), f"{count}\n")
        self.assertEqual(self.shell(f"archive put --db box.db --at {1 + DAYS} $(cat files)"), "".join(f"new {it}\n" for it in names))
        self.assertEqual(self.shell(f"archive put --db box.db --at {1 + DAYS} $(cat files)"), "".join(f"again {it}\n" for it in names))
        for word in ("waiting", "run"):
            self.assertEqual(self.shell(f"archive {word} --db box.db --at {1 + DAYS}"), "")
        self.assertEqual(self.shell("archive verdicts --db box.db"), f"accepted {CHANGES}\n")
        self.assertEqual(self.shell(f"archive show --db box.db {PACKAGES}"), shown)

    @needs("dpkg-deb")
    def test_an_upload_has_to_come_whole_within_the_days(self):
        self.made_with_days()
        self.ready()
        self.shell(f"set -- $(cat files); archive put --db box.db --at 1 $1; shift; archive put --db box.db --at {DAYS} $@")
        self.assertEqual(self.shell(f"archive waiting --db box.db --at {DAYS}"), f"0 {CHANGES}\n")
        self.assertEqual(self.shell(f"archive waiting --db box.db --at {1 + DAYS}"), f"1 {CHANGES}\n")
        self.assertEqual(self.shell(f"archive run --db box.db --at {1 + DAYS}"), "")
        self.shell(f"set -- $(cat files); archive put --db box.db --at {1 + DAYS} $1")
        self.assertEqual(self.shell(f"archive run --db box.db --at {1 + DAYS}"), f"accepted {CHANGES}\n")

    @needs("dpkg-deb")
    def test_a_moment_too_far_ahead_stays(self):
        self.made()
        self.ready()
        self.shell("archive put --db box.db --at 1 $(cat files)")
        self.shell("archive run --db box.db --at 4102444799")
        self.assertIn("\nDate: Thu, 31 Dec 2099 23:59:59 UTC\n", self.shell("archive show --db box.db dists/box/Release"))
        self.assertEqual(self.fails("archive waiting --db box.db --at 4102444800")[0], 2)


class Serving(Case):
    def setUp(self):
        super().setUp()
        self.made()

    def done(self, words):
        """Runs the command of a unit, and answers what it prints."""
        ran = subprocess.run(words, cwd=self.room.work, env=self.room.variables, capture_output=True, text=True, check=False, timeout=LONG)
        self.assertEqual((ran.returncode, ran.stderr), (0, ""))
        return ran.stdout

    def at(self, port):
        """The page's address outside of the machine, and that of the test."""
        return {"archive.example.org:8080": f"127.0.0.1:{port}"}

    def test_it_serves(self):
        port = free_port()
        text = snippet("serve", {"127.0.0.1:8080": f"127.0.0.1:{port}"})
        self.room.start(["sh", "-ec", text], port=port)
        self.assertIn("Codename: box\n", self.shell(f"curl -sS --fail http://127.0.0.1:{port}/dists/box/Release"))
        for words, wanted in (("", "422"), ("-H 'Origin: null'", "403")):
            self.assertEqual(self.shell(f"curl -sS -o got -w '%{{http_code}}' {words} -X POST http://127.0.0.1:{port}/copy/box/box/hello"), wanted)

    @needs("dpkg-deb", "chromium")
    def test_no_form_of_a_page_changes_anything(self):
        """Neither a form, a fetch nor a beacon of a page takes a package out of a suite, and a PUT does not come. Without the option each of the first does."""
        self.ready()
        self.shell('archive put --db box.db --at "$(date +%s)" $(cat files); archive run --db box.db --at "$(date +%s)"')
        for words, status, shown in ((["--refuse-origin"], "403", "hello 1.0-1 source main hello\nhello 1.0-1 amd64 main hello\n"), ([], "200", "")):
            port = self.serve("--log", *words)
            url = f"http://127.0.0.1:{port}/remove/box/hello"
            form = f'<form method=post action="{url}" target=frame></form><iframe name=frame></iframe>'
            script = f"fetch('{url}', {{method: 'POST', mode: 'no-cors'}}); navigator.sendBeacon('{url}', ''); document.forms[0].submit();"
            put = f"fetch('http://127.0.0.1:{port}/incoming/a.deb', {{method: 'PUT', body: 'abc'}});"
            self.room.browsed(f"file://{self.room.write('page.html', f'<!doctype html>{form}<script>{script}{put}</script>')}")
            told = self.wait_for(rf"(?s)(.*\d+ POST /remove/box/hello {status} ){{{3 if words else 1}}}")
            self.assertNotIn(" PUT /incoming/", told)
            self.room.end(self.process)
            self.assertEqual(self.shell("archive list --db box.db box"), shown)

    @needs("dpkg-deb", "curl")
    def test_uploading_by_curl(self):
        self.ready()
        port = self.serve("--log")
        text = snippet("curl", self.at(port))
        paths = self.room.read("work/files").split()
        for word in ("new", "again"):
            self.assertEqual(self.shell(text), "".join(f"{path}: {word}\n" for path in paths))
        self.check_quick(self.wait_for(f"(?m)(^\\d+ PUT .*\n){{{2 * len(paths)}}}"))
        self.assertEqual(self.shell(snippet("lists", self.at(port))), f"0 {CHANGES}\n")
        said = self.shell(snippet("why by HTTP", self.at(port)))
        self.assertRegex(said, rf"\Awaits {CHANGES} [0-9a-f]{{64}}\n since .* UTC\n whole\n\Z")
        self.assertTrue(said.startswith(snippet("waits")[:len(f"waits {CHANGES} ")]))
        self.shell(f"curl -sS --fail-with-body -X POST http://127.0.0.1:{port}/queue/run")
        self.assertEqual(self.shell(snippet("lists", self.at(port))), f"accepted {CHANGES}\n")
        said = self.shell(snippet("questions", {"127.0.0.1:8080": f"127.0.0.1:{port}"}))
        self.assertIn("\n shown box hello 1.0-1 amd64\n", said)
        self.assertTrue(said.endswith("box hello 1.0-1 source main hello\nbox hello 1.0-1 amd64 main hello\n"), said)
        self.check_log(snippet("log"))

    def check_quick(self, log):
        """Checks that each file of a log came at least once without the second that a client waits which asks first whether it may send: a machine may
        stall for a second."""
        seconds = {}
        for _, method, path, _, _, took in map(str.split, log.splitlines()):
            if method == "PUT":
                seconds.setdefault(path, []).append(int(took) / 1000)
        self.assertEqual([it for it, all_ in seconds.items() if min(all_) >= 1], [], log)

    def check_log(self, line):
        """Checks that the log has such a line as the page's, with other numbers."""
        self.wait_for("(?m)^" + re.sub(r"(?<= )\\?\d+(?= |$)|^\d+", r"\\d+", re.escape(line.strip()).replace(r"\ ", " ")) + "$")

    @needs("dpkg-deb")
    def test_uploading_in_one_command(self):
        text = snippet("upload", {**self.at(self.serve()), "../hello_1.0-1_amd64.changes": built(self.room.folder, HELLO)})
        self.ready()
        for word in ("new", "again"):
            self.assertEqual(self.shell(text), "".join(f"{word} {it}\n" for it in self.names()) + f"accepted {CHANGES}\n")
        self.spoil()
        done = self.room.run(snippets.changed(text, {f"{self.room.folder}/{CHANGES}": f"ready/{CHANGES}"}))
        self.assertEqual((done[0], done[1].splitlines()[-2:][0]), (1, f"refused Q3 C4 {CHANGES}"), done)
        path = pathlib.Path(self.room.folder, CHANGES)
        path.write_text(snippets.changed(path.read_text(), {"Distribution: box": "Distribution: lab"}))
        status, printed, told = self.room.run(text)
        self.assertEqual((status, told), (1, ""))
        lines = printed.splitlines()
        self.assertEqual(lines[lines.index(f"refused 1 {CHANGES}"):][:4],
            [f"refused 1 {CHANGES}", "No suite takes the distribution: it is no suite's Codename or Suite, and in no AlsoAcceptFor.", "distribution lab", "taken box box"])

    @needs("dpkg-deb")
    def test_uploading_a_package_file_alone(self):
        """Its .changes is made each time anew, and is the same."""
        shutil.copy(built(self.room.folder, HELLO).replace(".changes", ".deb"), f"{self.room.work}/vendor-latest.deb")
        text = snippet("package file alone", self.at(self.serve()))
        names = ["hello_1.0-1_amd64.deb", "hello_1.0-1_amd64.control", CHANGES]
        told = f"with_sidecars: vendor-latest.deb is {names[0]} by its own fields, and is named so\n"
        for word in ("new", "again"):
            self.assertEqual(self.room.run(text), (0, "".join(f"{word} {it}\n" for it in names) + f"accepted {CHANGES}\n", told))

    @needs("dpkg-deb")
    def test_uploading_where_one_connection_in_three_is_cut(self):
        proxy = Proxy(self.serve())
        self.addCleanup(proxy.close)
        text = snippet("upload", {**self.at(proxy.port), "../hello_1.0-1_amd64.changes": built(self.room.folder, HELLO)})
        self.ready()
        for _ in range(3):
            status, printed, told = self.room.run(text)
            self.assertEqual((status, printed.splitlines()[-1]), (0, f"accepted {CHANGES}"), told)
        self.assertEqual(set(proxy.cuts), {None, "accept", "request", "reply", "answer"})
        self.room.end(self.process)
        self.assertEqual(self.shell("archive verdicts --db box.db"), f"accepted {CHANGES}\n")
        self.assertEqual(self.shell("archive put --db box.db --at 4000000000 $(cat files)"), "".join(f"again {it}\n" for it in self.names()))

    @needs("dpkg-deb", "curl")
    def test_a_refusal_by_curl_tells_the_fault(self):
        self.ready()
        names = self.names()
        self.spoil()
        self.room.write("work/files", f"ready/{names[0]}\nready/{CHANGES}\nready/{names[1]}\n")
        text = snippet("curl", self.at(self.serve("--log")))
        _, printed, told = self.room.run(text)
        self.assertEqual(printed, f"ready/{names[0]}: new\nready/{CHANGES}: Q3 C4\n")
        self.assertIn("422", told)
        # It is not tried again.
        log = self.wait_for(f"(?m)^\\d+ PUT /incoming/{CHANGES} 422 ")
        self.assertEqual(re.findall(r"(?m)^\d+ PUT /incoming/(\S+) ", log), [names[0], CHANGES])

    def spoil(self):
        """Has the .changes be of another format, which is refused, and be the one file that is uploaded."""
        path = pathlib.Path(self.room.work, "ready", CHANGES)
        path.write_text(snippets.changed(path.read_text(), {"Format: 1.8": "Format: 1.7"}))
        self.room.write("work/files", f"ready/{CHANGES}\n")

    @needs("dpkg-deb")
    @needs_dput("dput-ng")
    def test_uploading_by_dput_ng(self):
        self.ready()
        port = self.serve()
        self.room.write("home/.dput.cf", snippet("dput.cf", self.at(port)))
        dput = snippet("dput")
        status, printed, told = self.room.run(dput)
        self.assertEqual((status, printed.count(f"accepted {CHANGES}\n")), (0, 1), told)
        status, printed, told = self.room.run(snippets.changed(dput, {"dput ": "dput --force "}))
        self.assertEqual((status, printed.count("accepted")), (0, 0), told)
        self.assertEqual(self.shell(snippet("lists", self.at(port))), f"accepted {CHANGES}\n")
        self.spoil()
        self.assertIn("Q3 C4\n", self.fails(snippets.changed(dput, {"dput ": "dput --force "}))[1])

    @needs("dpkg-deb")
    @needs_dput("dput")
    def test_uploading_by_dput(self):
        self.ready()
        port = self.serve()
        self.room.write("home/.dput.cf", snippet("dput.cf", self.at(port)))
        dput = snippet("dput")
        status, printed, told = self.room.run(dput)
        self.assertEqual((status, printed.count("done."), printed.count(f"accepted {CHANGES}\n")), (0, len(self.names()), 1), told)
        status, printed, told = self.room.run(snippets.changed(dput, {"dput ": "dput --force "}))
        self.assertEqual((status, printed.count("done."), printed.count("accepted")), (0, len(self.names()), 0), told)
        self.assertEqual(self.shell(snippet("lists", self.at(port))), f"accepted {CHANGES}\n")
        self.spoil()
        printed = self.fails(snippets.changed(dput, {"dput ": "dput --force "}))[1]
        self.assertIn("Upload failed: 422 Unprocessable Entity\n", printed)
        self.assertNotIn("Q3", printed)
        self.assertIn("Q3 C4\n", self.fails(snippets.changed(dput, {"dput ": "dput --force --debug "}))[1])

    @needs("dpkg-deb", "apt-get")
    def test_installing_from_it(self):
        self.ready()
        self.shell('archive put --db box.db --at "$(date +%s)" $(cat files); archive run --db box.db --at "$(date +%s)"')
        port = self.serve()
        for form in ("trusted", "sources"):
            text = snippet("trusted", self.at(port)) if form == "trusted" else snippet("sources", self.at(port))
            self.room.apt(text)
            self.shell("apt-get update && apt-get download hello && apt-get source --download-only hello")
            for name in ("hello_1.0-1_amd64.deb", "hello_1.0-1.dsc", "hello_1.0.orig.tar.gz"):
                path = pathlib.Path(self.room.work, name)
                self.assertEqual(path.read_bytes(), pathlib.Path(self.room.folder, name).read_bytes())
                path.unlink()

    @needs("dpkg-deb", "curl")
    def test_a_package_is_taken_out_by_curl(self):
        self.ready()
        self.shell('archive put --db box.db --at "$(date +%s)" $(cat files); archive run --db box.db --at "$(date +%s)"')
        port = self.serve()
        self.assertEqual(self.shell(snippet("remove by HTTP", self.at(port))), "2\n")
        self.assertEqual(self.shell(f"curl -sS --fail http://127.0.0.1:{port}/{PACKAGES}"), "")

    @needs("dpkg-deb", "curl")
    def test_a_whole_suite_is_copied_by_curl(self):
        self.made_with_lab()
        self.ready()
        self.shell('archive put --db box.db --at "$(date +%s)" $(cat files); archive run --db box.db --at "$(date +%s)"')
        port = self.serve()
        self.assertEqual(self.shell(snippet("promote by HTTP", self.at(port))), "2 hello\n")
        self.assertEqual(self.shell(snippet("promote by HTTP", self.at(port))), "0 hello\n")

    @needs("dpkg-deb", "apt-get", "curl")
    def test_apt_sees_testing_and_stable(self):
        self.shell("rm box.db*")
        self.made_with_three()
        port = self.serve()
        self.room.apt(snippet("trusted", {**self.at(port), "/ box main": "/ stable main"}))
        for version, printed in (("1.0-1", "2 hello\n"), ("1.1-1", "2 hello\n2 hello\n")):
            text = snippet("upload", {**self.at(port), "../hello_1.0-1_amd64.changes": built(self.room.folder, hello(version))})
            self.assertTrue(self.shell(text).endswith(f"accepted hello_{version}_amd64.changes\n"))
            self.assertEqual(self.shell(snippet("promote to stable by HTTP", self.at(port))), printed)
            self.check_apt_gets(version)
        self.assertEqual(self.shell(snippet("go back by HTTP", self.at(port))), "2\n2\n")
        self.check_apt_gets("1.0-1")
        self.assertEqual(self.shell(snippet("promote to stable by HTTP", self.at(port))), "0 hello\n2 hello\n")
        self.check_apt_gets("1.1-1")

    def check_apt_gets(self, version):
        """Checks that apt gets this version of hello after an update."""
        self.shell("apt-get update && apt-get download hello")
        body = pathlib.Path(self.room.work, f"hello_{version}_amd64.deb").read_bytes()
        self.assertEqual(body, pathlib.Path(self.room.folder, f"hello_{version}_amd64.deb").read_bytes())
        self.shell("rm hello_*.deb")

    @needs("dpkg-deb", "apt-get")
    def test_a_release_expires_and_is_renewed(self):
        self.room.write("work/box.conf", snippet("configuration") + "ValidDays: 7\n")
        self.shell(f"rm box.db*; archive init --db box.db --at {int(time.time()) - 8 * 86_400} box.conf")
        address = self.at(self.serve())
        self.room.apt(snippet("trusted", address))
        self.assertIn(" is expired ", self.fails("apt-get update")[1])
        for text in (
            snippet("trusted", {**address, "trusted=yes": "trusted=yes check-valid-until=no"}),
            snippet("sources", {**address, "Trusted: yes": "Trusted: yes\nCheck-Valid-Until: no"}),
        ):
            self.room.apt(text)
            self.assertEqual(self.room.run("apt-get update")[0], 0)
        self.room.end(self.process)
        self.ready()
        self.shell('archive put --db box.db --at "$(date +%s)" $(cat files); archive run --db box.db --at "$(date +%s)"')
        self.room.apt(snippet("trusted", self.at(self.serve())))
        self.shell("apt-get update && apt-get download hello")

    def systemctl(self):
        """A systemctl that ends what serves if it is called to stop it, and notes its words."""
        text = f'#!/bin/sh -e\necho "$*" >> systemctl.log\n[ "$1" = start ] || kill {self.process.pid}\n'
        self.room.write("bin/systemctl", text, 0o755)

    def updates(self, wanted):
        """Has apt look once, and checks whether it then gets the package for arm64."""
        status, _, told = self.room.run("apt-get update")
        self.assertEqual(status, 0, told)
        status, _, told = self.room.run("rm -rf got; mkdir got; cd got; apt-get download hello:arm64")
        self.assertEqual(status == 0, wanted, told)

    @needs("dpkg-deb", "apt-get")
    def test_apt_sees_another_configuration(self):
        """After one update, if the service is ended, configured and started as the page says."""
        self.ready()
        self.shell('archive put --db box.db --at "$(date +%s)" $(cat files); archive run --db box.db --at "$(date +%s)"')
        port = self.serve()
        self.room.apt(snippet("trusted", self.at(port)))
        with open(self.room.variables["APT_CONFIG"], "a", encoding="ascii") as it:
            it.write('#clear APT::Architectures;\nAPT::Architectures { "amd64"; "arm64"; };\n')
        self.updates(False)
        self.systemctl()
        self.assertEqual(self.shell(snippet("another configuration", {"cd /srv/box\n": "", "runuser -u archive -- ": ""})), "")
        self.assertEqual(self.room.read("work/systemctl.log"), "stop boqitsel\nstart boqitsel\n")
        self.assertEqual(self.room.read("work/old.conf"), snippet("configuration"))
        self.assertEqual(self.shell("archive configuration --db box.db"), snippet("configuration", {"amd64 source": "amd64 arm64 source"}))
        for name, body in arm64_upload().items():
            pathlib.Path(self.room.work, name).write_bytes(body)
        self.shell('archive put --db box.db --at "$(date +%s)" *_arm64.*; archive run --db box.db --at "$(date +%s)"')
        self.room.end(self.process)
        self.serve(port=port)
        self.updates(True)
        self.assertEqual(self.room.read("work/got/hello_1.0-1_arm64.deb"), "arm64\n")
        self.shell("apt-get download hello")

    @needs("dpkg-deb", "curl")
    def test_the_commands_of_the_units(self):
        self.ready()
        port = free_port()
        address = {"127.0.0.1:8080": f"127.0.0.1:{port}"}
        [serve] = commands_of(snippet("box.service", {**address, "/usr/local/bin/archive": "archive"}))
        self.room.start(serve, port=port)
        self.shell(snippet("curl", self.at(port)))
        # The moment that the service began with is the least; a greater one in the file is taken up.
        commands = commands_of(snippet("queue.service", {**address, "date +%%s": f"echo {int(time.time()) + 3600}"}))
        printed = [self.done(words) for words in commands]
        self.assertEqual(printed[-1], f"accepted {CHANGES}\n")
        moment = self.room.read("work/now").strip()
        self.wait_for(f"(?m)^{moment} POST /queue/run 200 ")
        [clean] = commands_of(snippet("clean.service", address))
        self.assertEqual(self.done(clean), "0\n")
        [moment, run] = commands_of(snippet("queue.service"))
        self.assertEqual(moment, ["/bin/sh", "-c", "date +%s > now.new && mv now.new now"])


class Anew(Case):
    """An archive that is made anew of what builders kept."""

    def revision(self, number, has_upstream):
        """Makes the upload of a revision of hello, of which the first alone lists the upstream's source."""
        package = hello(f"1.0-{number}")
        files = {f"hello_1.0-{number}_amd64.deb": uploads.deb_of(package), **uploads.source_of(package)}
        if not has_upstream:
            del files["hello_1.0.orig.tar.gz"]
        name = f"hello_1.0-{number}_amd64.changes"
        for path, body in {**files, name: uploads.changes_of("hello", package.version, files)}.items():
            pathlib.Path(self.room.folder, path).write_bytes(body)
        self.shell(f"with_sidecars ../{name} ready > {number}.files")
        return name

    def judged(self, db, *numbers):
        """Puts uploads, and answers what one run says of them."""
        for number in numbers:
            self.shell(f"archive put --db {db} --at 1 $(cat {number}.files)")
        return self.shell(f"archive run --db {db} --at 1")

    @needs("dpkg-deb")
    def test_it_shows_what_the_old_one_did(self):
        self.made()
        self.shell("mv box.db old.db; rm -f box.db-wal; rm -rf ready")
        first, fix, tenth = (self.revision(number, number == "1") for number in ("1", "1.1", "10"))
        self.assertEqual(self.judged("old.db", "10"), f"refused 8 {tenth}\n")
        for number, name in (("1", first), ("1.1", fix)):
            self.assertEqual(self.judged("old.db", number), f"accepted {name}\n")
        printed = self.shell(snippet("anew"))
        self.assertEqual(re.findall("^accepted .*|^refused .*", printed, re.M), [f"accepted {first}", f"accepted {fix}"])
        for path in (PACKAGES, "dists/box/main/source/Sources"):
            shown = [self.shell(f"archive show --db {db} {path}") for db in ("old.db", "new.db")]
            self.assertEqual(shown[0], shown[1])

    @needs("dpkg-deb")
    def test_one_run_for_all_refuses_later_revisions(self):
        """Until they come under another name."""
        self.made()
        first, fix, tenth = (self.revision(number, number == "1") for number in ("1", "1.1", "10"))
        self.assertEqual(self.judged("box.db", "1", "1.1", "10"), f"refused 8 {fix}\nrefused 8 {tenth}\naccepted {first}\n")
        again = snippet("again", {"ready/hello_1.0-1_amd64.changes": f"ready/{tenth}"})
        self.assertEqual(self.shell(again), "new again.changes\naccepted again.changes\n")
        self.assertIn("\nVersion: 1.0-10\n", self.shell(f"archive show --db box.db {PACKAGES}"))


class Copies(Case):
    def setUp(self):
        super().setUp()
        self.made()

    def systemctl(self):
        """A systemctl that knows one word: it sends a signal to what serves."""
        text = f'#!/bin/sh -e\n[ "$1 $3" = "kill boqitsel" ]\nkill -s "${{2#--signal=}}" {self.process.pid}\n'
        self.room.write("bin/systemctl", text, 0o755)

    def put(self, number):
        """A request that puts a file of this number."""
        return put_of(f"file{number}_1.0-1_amd64.deb", b"%d " % number * 30_000)

    def asked(self, port, request):
        """The status that is answered."""
        with socket.create_connection(("127.0.0.1", port), timeout=LONG) as it:
            it.sendall(request)
            return int(it.makefile("rb").readline().split()[1])

    @contextlib.contextmanager
    def putting(self, port):
        """Puts one file after the other, and lists the numbers of those that were answered."""
        answered, ended = [], threading.Event()

        def go():
            while not ended.is_set():
                self.assertEqual(self.asked(port, self.put(len(answered))), 201)
                answered.append(len(answered))

        thread = threading.Thread(target=go)
        thread.start()
        try:
            yield answered
        finally:
            ended.set()
            thread.join(LONG)

    def is_one(self, answered):
        """Waits until something is answered, and says whether it is."""
        end = time.monotonic() + LONG
        while not answered and time.monotonic() < end:
            time.sleep(0.01)
        return bool(answered)

    def test_a_copy_while_it_serves_opens_and_has_all_that_was_answered(self):
        port = self.serve()
        self.systemctl()
        counts = []
        with self.putting(port) as answered:
            self.assertTrue(self.is_one(answered))
            for number in range(6):
                time.sleep(0.3)
                counts.append(len(answered))
                # Copies of one second need folders of their own.
                self.shell(snippet("copy", {"$(date +%s)": f"{number}"}))
        self.assertGreater(counts[-1], counts[0])
        for number, count in enumerate(counts):
            copy = f"copy=copies/{number}; "
            self.shell(copy + snippet("look"))
            for last in (0, count - 1):
                self.room.write(f"file{last}_1.0-1_amd64.deb", f"{last} " * 30_000)
                put = f'archive put --db "$copy"/box.db --at 4000000000 ../file{last}_1.0-1_amd64.deb'
                self.assertEqual(self.shell(copy + put), f"again file{last}_1.0-1_amd64.deb\n")
        print(f"Copies were taken behind {counts} files that were answered, and each had the last one.")

    def test_the_backup_as_it_stands(self):
        """By its lines and by its unit, while it is served."""
        port = self.serve()
        self.assertEqual(self.asked(port, self.put(0)), 201)
        printed = self.shell(snippet("backup"))
        self.assertRegex(printed, r"\Acopies/\d{8}T\d{6}Z/box\.db\n\Z")
        self.assertEqual(self.asked(port, self.put(1)), 201)
        [unit] = commands_of(snippet("backup.service", {"/usr/local/bin/backup": "backup"}))
        paths = [printed, self.shell(shlex.join(unit))]
        for path, word in zip(paths, ("new", "again")):
            self.room.write("file1_1.0-1_amd64.deb", "1 " * 30_000)
            put = f"archive put --db {path.strip()} --at 4000000000 ../file1_1.0-1_amd64.deb"
            self.assertEqual(self.shell(put), f"{word} file1_1.0-1_amd64.deb\n")
        self.assertIn("OnCalendar=04:00\n", snippet("backup.timer"))

    def test_the_copy_as_it_stands(self):
        port = self.serve()
        self.systemctl()
        self.assertEqual(self.asked(port, self.put(0)), 201)
        self.shell(snippet("copy") + snippet("look"))
        self.assertEqual(self.asked(port, self.put(0)), 200)
        self.assertEqual(len(glob.glob(f"{self.room.work}/copies/*/box.db")), 1)

    def test_a_copy_without_its_log_is_an_older_state(self):
        port = self.serve()
        self.assertEqual(self.asked(port, self.put(0)), 201)
        self.room.end(self.process)
        self.room.write("file0_1.0-1_amd64.deb", "0 " * 30_000)
        self.shell("mkdir both alone; cp box.db* both; cp box.db alone")
        put = "archive put --db {}/box.db --at 4000000000 ../file0_1.0-1_amd64.deb"
        self.assertEqual(self.shell(put.format("both")), "again file0_1.0-1_amd64.deb\n")
        self.assertEqual(self.shell(put.format("alone")), "new file0_1.0-1_amd64.deb\n")

    @needs("sqlite3", "dpkg-deb")
    def test_the_file_is_packed(self):
        """After a cleaning, by the room that it left; what the pool has is still there."""
        self.made_with_days()
        self.ready()
        self.room.write("work/large_1.0-1_amd64.deb", "large" * 200_000)
        self.shell("archive put --db box.db --at 1 $(cat files) large_1.0-1_amd64.deb && archive run --db box.db --at 1")
        self.assertEqual(self.shell(f"archive clean --db box.db --at {1 + DAYS}"), f"{len(self.names()) + 1}\n")
        size = os.path.getsize(f"{self.room.work}/box.db")
        self.shell(snippet("pack"))
        self.assertLess(os.path.getsize(f"{self.room.work}/box.db"), size - 900_000)
        self.assertEqual(self.shell("archive verdicts --db box.db"), f"accepted {CHANGES}\n")
        self.shell("archive show --db box.db pool/main/h/hello/hello_1.0-1_amd64.deb | cmp - ready/hello_1.0-1_amd64.deb")

    @needs("sqlite3")
    def test_sqlite3_copies_nothing_while_it_serves(self):
        self.serve()
        self.assertIn("database is locked", self.fails("sqlite3 box.db '.backup copied.db'")[1])

    @needs("sqlite3")
    def test_what_stands_beside_is_passed_over(self):
        """Until it stands on a table of the archive, or refers to one."""
        self.shell(snippet("notes") + "sqlite3 box.db ANALYZE")
        self.assertEqual(self.shell("archive verdicts --db box.db"), "")
        for added, dropped in (
            ("CREATE INDEX moments ON arrivals (moment)", "DROP INDEX moments"),
            ("CREATE TABLE marks (body INTEGER REFERENCES bodies (id))", "DROP TABLE marks"),
        ):
            self.shell(f"sqlite3 box.db '{added}'")
            self.assertEqual(self.fails("archive verdicts --db box.db"), (1, "archive: K4\n"))
            self.shell(f"sqlite3 box.db '{dropped}'")
            self.assertEqual(self.shell("archive verdicts --db box.db"), "")
        self.assertEqual(self.shell("sqlite3 box.db 'SELECT version FROM meta'"), "3\n")


class Refusals(Case):
    """What K2 may be beside another process, and where a full disk shows."""

    def setUp(self):
        super().setUp()
        self.made()

    def k2(self, text="archive verdicts --db box.db"):
        self.assertEqual(self.fails(text), (3, "archive: K2\n"))

    def test_a_second_name(self):
        self.shell("ln box.db other")
        self.k2()
        self.shell("rm other; archive verdicts --db box.db")

    def test_a_journal_of_another_program(self):
        self.shell("echo journal > box.db-journal")
        self.k2()
        self.shell("rm box.db-journal; archive verdicts --db box.db")

    def test_damage(self):
        path = pathlib.Path(self.room.work, "box.db")
        body = path.read_bytes()
        for damaged in (b"not a database " * 1000, body[:len(body) // 2]):
            path.write_bytes(damaged)
            self.shell("rm -f box.db-wal")
            self.k2()

    @needs_root
    def test_no_right_to_write(self):
        shutil.copy(PROGRAM, f"{self.room.folder}/copy")
        os.chmod(self.room.folder, 0o755)
        for mode, folder in ((0o444, 0o777), (0o666, 0o555)):
            os.chmod(f"{self.room.work}/box.db", mode)
            os.chmod(self.room.work, folder)
            words = [f"{self.room.folder}/copy", "verdicts", "--db", "box.db"]
            ran = subprocess.run(words, cwd=self.room.work, user=65534, group=65534, capture_output=True, text=True, check=False, timeout=LONG)
            self.assertEqual((ran.returncode, ran.stdout, ran.stderr), (3, "", "archive: K2\n"), (mode, folder))

    def test_a_full_disk(self):
        with mounted(4_000_000) as folder:
            self.shell(f"cp box.db {folder}/; head -c 2000000 /dev/zero > large_1.0-1_amd64.deb")
            self.shell(f"head -c 3000000 /dev/zero > {folder}/filler")
            put = f"archive put --db {folder}/box.db --at 4000000000 large_1.0-1_amd64.deb"
            status, told = self.fails(put)
            self.assertEqual((status, told), (3, "archive: Q4 K2\n"))
            self.shell(f"rm {folder}/filler")
            self.assertEqual(self.shell(put), "new large_1.0-1_amd64.deb\n")

    def test_a_full_disk_of_its_own(self):
        """What does not fit fills it, so that a small file is refused, too, until the reserve is taken away, or the archive was elsewhere."""
        self.shell("head -c 2500000 /dev/zero > large_1.0-1_amd64.deb; echo small > small_1.0-1_amd64.deb")
        for has_reserve in (True, False):
            with mounted(4_000_000) as folder:
                self.shell(f"cp box.db {folder}/")
                self.shell(snippet("reserve", {"80M reserve": f"2M {folder}/reserve"}))
                put = f"archive put --db {folder}/box.db --at 4000000000"
                for name in ("large", "small"):
                    self.assertEqual(self.fails(f"{put} {name}_1.0-1_amd64.deb")[0], 3, name)
                if has_reserve:
                    self.shell(f"rm {folder}/reserve")
                else:
                    self.shell(f"mkdir other; mv {folder}/box.db* other/; archive verdicts --db other/box.db; mv other/box.db* {folder}/")
                self.assertEqual(self.shell(f"{put} small_1.0-1_amd64.deb"), "new small_1.0-1_amd64.deb\n")

    def test_a_reserve_is_larger_than_the_log(self):
        """What the log has is brought into box.db first, and then the log goes. A smaller reserve is used up by that."""
        self.shell("for name in a b c d e f g; do head -c 3000000 /dev/urandom > ${name}_1.0-1_amd64.deb; done")
        for size, is_enough in ((3, False), (12, True)):
            with self.subTest(size), mounted(20_000_000) as folder:
                self.shell(f"cp box.db {folder}/")
                self.shell(snippet("reserve", {"80M reserve": f"{size}M {folder}/reserve"}))
                self.fails(f"archive put --db {folder}/box.db --at 4000000000 ?_1.0-1_amd64.deb")
                self.shell(f"rm {folder}/reserve; archive verdicts --db {folder}/box.db")
                self.assertEqual(os.path.getsize(f"{folder}/box.db-wal") < 1000, is_enough)
                self.assertEqual(self.room.run(snippet("reserve", {"80M reserve": f"1M {folder}/reserve"}))[0] == 0, is_enough)


if __name__ == "__main__":
    main()
