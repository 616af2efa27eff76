"""Tests of what `list`, `check`, `--json` and `--strict` print and end with, and of `serve --export`. The program is that of program.py."""
import hashlib
import json
import os
import subprocess
import tempfile

from tests.program import DATA, MOMENT, NAMES, PROGRAM, Lines, Serving, get, put, replied
from tests.wants import main, needs

CHANGES, DEB, CONTROL = NAMES

# A .changes of these files, each a triple of section, name and body, and the other fields of the text.
HEAD = """Format: 1.8
Date: Sat, 02 Jul 2016 05:00:00 +0000
Source: {source}
Version: {version}
Architecture: {architectures}
Distribution: {distribution}
Maintainer: Ann <ann@example.org>
Changes:
 {source} ({version}) {distribution}; urgency=low
 .
   * A change.
"""

CONTROL_TEXT = """Package: {package}
Version: {version}
Architecture: {architecture}
Maintainer: Ann <ann@example.org>
Source: {source}
Description: a thing
"""

DSC = """Format: 3.0 (native)
Source: {source}
Binary: {source}
Architecture: any
Version: {version}
Maintainer: Ann <ann@example.org>
Checksums-Sha1:
 {sha1} {size} {name}
Checksums-Sha256:
 {sha256} {size} {name}
Files:
 {md5} {size} {name}
"""


def digest(name, body):
    return hashlib.new(name, body).hexdigest()


class Archive(Lines):
    """An archive of two suites, box and lab, in a folder of its own."""

    CONF = "Codename: box\nArchitectures: amd64 i386 source\nComponents: main extra\n\nCodename: lab\nArchitectures: amd64 source\nComponents: main\n"

    def setUp(self):
        room = tempfile.TemporaryDirectory()
        self.addCleanup(room.cleanup)
        self.folder, self.db = room.name, f"{room.name}/box.db"
        self.line(0, "init", self.db, "--at", "0", self.file("box.conf", self.CONF.encode()))

    def file(self, name, body):
        """A file of the folder."""
        with open(f"{self.folder}/{name}", "wb") as it:
            it.write(body)
        return it.name

    def ran(self, *words):
        """Runs a line. Answers the exit status, and what is printed on both outputs."""
        ran = subprocess.run([PROGRAM, *words], capture_output=True, text=True, check=False, timeout=120)
        return ran.returncode, ran.stdout, ran.stderr

    def upload(self, source, version, packages, distribution="box", component="", with_source=False):
        """Delivers an upload of packages, each a pair of name and architecture, with a source or not."""
        front = f"{component}/" if component else ""
        short = version.rpartition(":")[2]
        files = []
        if with_source:
            tar = f"{source}_{short}.tar.xz", f"tar of {source}\n".encode()
            sums = {name: digest(name, tar[1]) for name in ("md5", "sha1", "sha256")}
            dsc = DSC.format(source=source, version=version, name=tar[0], size=len(tar[1]), **sums)
            files += [(f"{front}utils", f"{source}_{short}.dsc", dsc.encode()), (f"{front}utils", *tar)]
        for package, architecture in packages:
            stem = f"{package}_{short}_{architecture}"
            control = CONTROL_TEXT.format(package=package, version=version, architecture=architecture, source=source)
            files += [(f"{front}utils", f"{stem}.deb", f"deb of {stem}\n".encode()), (f"{front}utils", f"{stem}.control", control.encode())]
        architectures = sorted({architecture for _, architecture in packages} | ({"source"} if with_source else set()))
        text = HEAD.format(source=source, version=version, architectures=" ".join(architectures), distribution=distribution)
        for title, name in (("Checksums-Sha1", "sha1"), ("Checksums-Sha256", "sha256")):
            text += f"{title}:\n" + "".join(f" {digest(name, body)} {len(body)} {file}\n" for _, file, body in files)
        text += "Files:\n" + "".join(f" {digest('md5', body)} {len(body)} {section} optional {file}\n" for section, file, body in files)
        paths = [self.file(file, body) for _, file, body in files] + [self.file(f"{source}_{short}.changes", text.encode())]
        self.line(0, "put", self.db, "--at", "1", *paths)
        return {file: body for _, file, body in files}


class Listing(Archive):
    def test_a_suite_that_shows_nothing(self):
        self.assertEqual(self.ran("list", "--db", self.db, "box"), (0, "", ""))
        self.assertEqual(self.ran("list", "--db", self.db, "--json", "lab"), (0, "", ""))

    def test_an_unknown_suite_is_refused(self):
        for words in (["nothing"], [""], ["Box"], ["--json", "nothing"]):
            with self.subTest(words):
                self.assertEqual(self.ran("list", "--db", self.db, *words), (1, "", "archive: Q6\n"))

    def test_items_are_in_the_order_of_their_shelves(self):
        self.upload("zebra", "1.0", [("zebra", "amd64"), ("zebra", "i386"), ("ant", "all")], with_source=True)
        self.upload("ant", "2:1.0-1", [("libant", "amd64")], component="extra")
        self.upload("bee", "1.0", [("bee", "amd64")], distribution="lab")
        self.assertEqual(self.line(0, "run", self.db, "--at", "1").count("accepted"), 3)
        wanted = [
            "zebra 1.0 source main zebra",
            "ant 1.0 all main zebra",
            "libant 2:1.0-1 amd64 extra ant",
            "zebra 1.0 amd64 main zebra",
            "zebra 1.0 i386 main zebra",
        ]
        self.assertEqual(self.ran("list", "--db", self.db, "box"), (0, "".join(f"{line}\n" for line in wanted), ""))
        self.assertEqual(self.ran("list", "--db", self.db, "lab"), (0, "bee 1.0 amd64 main bee\n", ""))

    def test_all_suites_have_their_codenames_in_front(self):
        self.assertEqual(self.ran("list", "--db", self.db), (0, "", ""))
        self.upload("zebra", "1.0", [("zebra", "amd64")], with_source=True)
        self.upload("bee", "1.0", [("bee", "amd64")], distribution="lab")
        self.upload("ant", "2:1.0-1", [("libant", "amd64")], component="extra")
        self.assertEqual(self.line(0, "run", self.db, "--at", "1").count("accepted"), 3)
        wanted = ["box zebra 1.0 source main zebra", "box libant 2:1.0-1 amd64 extra ant", "box zebra 1.0 amd64 main zebra", "lab bee 1.0 amd64 main bee"]
        self.assertEqual(self.ran("list", "--db", self.db), (0, "".join(f"{line}\n" for line in wanted), ""))

    def test_all_suites_as_json_name_their_suites(self):
        files = self.upload("bee", "1.0", [("bee", "amd64")], distribution="lab")
        self.line(0, "run", self.db, "--at", "1")
        deb = files["bee_1.0_amd64.deb"]
        file = f'{{"path":"pool/main/b/bee/bee_1.0_amd64.deb","sha256":"{digest("sha256", deb)}","size":{len(deb)}}}'
        wanted = f'{{"architecture":"amd64","component":"main","files":[{file}],"package":"bee","source":"bee","suite":"lab","version":"1.0"}}\n'
        self.assertEqual(self.ran("list", "--json", "--db", self.db), (0, wanted, ""))

    def test_items_as_json_have_their_files(self):
        files = self.upload("zebra", "1.0", [("zebra", "amd64")], with_source=True)
        self.line(0, "run", self.db, "--at", "1")
        status, printed, told = self.ran("list", "--json", "--db", self.db, "box")
        self.assertEqual((status, told), (0, ""))
        found = [json.loads(line) for line in printed.splitlines()]

        def item(architecture, *names):
            rows = [{"path": f"pool/main/z/zebra/{name}", "size": len(files[name]), "sha256": digest("sha256", files[name])} for name in names]
            return {"package": "zebra", "version": "1.0", "architecture": architecture, "component": "main", "source": "zebra", "files": rows}

        self.assertEqual(found[1:], [item("amd64", "zebra_1.0_amd64.deb")])
        self.assertEqual(len(found), 1 + len(found[1:]))
        found[0]["files"].sort(key=lambda file: file["path"])
        self.assertEqual(found[0], item("source", "zebra_1.0.dsc", "zebra_1.0.tar.xz"))

    def test_only_the_newest_version_is_listed(self):
        for version in ("1.0", "1.0-2", "0.9"):
            self.upload("bee", version, [("bee", "amd64")])
            self.line(0, "run", self.db, "--at", "1")
        self.assertEqual(self.ran("list", "--db", self.db, "box"), (0, "bee 1.0-2 amd64 main bee\n", ""))
        self.line(0, "remove", self.db, "--at", "1", "box", "bee")
        self.assertEqual(self.ran("list", "--db", self.db, "box"), (0, "", ""))


class Json(Archive):
    def objects(self, *words):
        status, printed, told = self.ran(*words)
        self.assertEqual((status, told), (0, ""))
        return [json.loads(line) for line in printed.splitlines()]

    def test_waiting_and_verdicts(self):
        self.assertEqual(self.ran("waiting", "--db", self.db, "--at", "1", "--json"), (0, "", ""))
        self.assertEqual(self.ran("verdicts", "--db", self.db, "--json"), (0, "", ""))
        self.line(0, "put", self.db, "--at", "1", f"{DATA}/{CHANGES}", f"{DATA}/{DEB}")
        self.upload("bee", "1.0", [("bee", "arm64")])
        wanted = [{"upload": "bee_1.0.changes", "missing": 0}, {"upload": CHANGES, "missing": 1}]
        self.assertEqual(self.objects("waiting", "--db", self.db, "--at", "1", "--json"), wanted)
        self.assertEqual(self.line(0, "waiting", self.db, "--at", "1"), f"0 bee_1.0.changes\n1 {CHANGES}\n")
        self.line(0, "put", self.db, "--at", "1", f"{DATA}/{CONTROL}")
        self.line(0, "run", self.db, "--at", "1")
        wanted = [{"upload": "bee_1.0.changes", "verdict": 2}, {"upload": CHANGES, "verdict": 0}]
        self.assertEqual(self.objects("verdicts", "--json", "--db", self.db), wanted)
        self.assertEqual(self.line(0, "verdicts", self.db), f"refused 2 bee_1.0.changes\naccepted {CHANGES}\n")


class Strict(Archive):
    def test_a_run_that_refuses_an_upload(self):
        self.upload("bee", "1.0", [("bee", "arm64")])
        self.assertEqual(self.ran("run", "--db", self.db, "--at", "1", "--strict"), (1, "refused 2 bee_1.0.changes\n", ""))
        self.assertEqual(self.ran("run", "--db", self.db, "--at", "1", "--strict"), (0, "", ""))

    def test_a_run_that_refuses_none(self):
        self.upload("bee", "1.0", [("bee", "amd64")])
        self.assertEqual(self.ran("run", "--strict", "--db", self.db, "--at", "1"), (0, "accepted bee_1.0.changes\n", ""))

    def test_without_the_flag_the_status_stays(self):
        self.upload("bee", "1.0", [("bee", "arm64")])
        self.assertEqual(self.ran("run", "--db", self.db, "--at", "1"), (0, "refused 2 bee_1.0.changes\n", ""))

    def test_a_list_with_a_run_that_refuses_an_upload(self):
        self.upload("bee", "1.0", [("bee", "arm64")])
        path = self.file("list", b"run\nverdicts\n")
        printed = "refused 2 bee_1.0.changes\n"
        self.assertEqual(self.ran("batch", "--db", self.db, "--at", "1", "--strict", path), (1, printed * 2, ""))
        # The verdicts of earlier runs count for nothing.
        self.assertEqual(self.ran("batch", "--db", self.db, "--at", "1", "--strict", path), (0, printed, ""))

    def test_a_list_without_the_flag(self):
        self.upload("bee", "1.0", [("bee", "arm64")])
        self.assertEqual(self.ran("batch", "--db", self.db, "--at", "1", self.file("list", b"run\n")), (0, "refused 2 bee_1.0.changes\n", ""))


class Checked(Archive):
    def checked(self, text):
        return self.ran("check", self.file("checked.conf", text.encode()))

    def test_each_kind_of_line(self):
        text = """Codename: box
Suite: unstable
AlsoAcceptFor: sid experimental
Architectures: amd64 source
Components: main extra
Description: What is new
KeepDays: 90
ValidDays: 7
MaxFileSize: 200
Uploaders:
 hello by anybody
 lib* by Ann <ann@example.org>
 * by Eve <eve@example.org>

codename: lab
ARCHITECTURES: i386
Components: main

Codename: shut
Architectures: source
Components: main
Uploaders:
"""
        wanted = """suite box
 takes box unstable sid experimental
 architectures amd64 source
 components main extra
 uploads hello by anybody
 uploads lib* by Ann <ann@example.org>
 uploads * by Eve <eve@example.org>
 release valid for 7 days
suite lab
 takes lab
 architectures i386
 components main
 uploads * by anybody
 release valid for good
suite shut
 takes shut
 architectures source
 components main
 uploads nothing
 release valid for good
files count for 90 days
files up to 200 MiB
"""
        self.assertEqual(self.checked(text), (0, wanted, ""))

    def test_how_large_a_file_may_be(self):
        """A line says it if the field is there. What is no number of MiB for it is refused."""
        text, last = "Codename: box\nArchitectures: amd64\nComponents: main\n", "files count for good\n"
        self.assertTrue(self.checked(text)[1].endswith(f"\n{last}"))
        for field, number in (("MaxFileSize: 4", 4), ("MaxFileSize: 5", 5), ("MaxFileSize: 1024", 1024), ("maxfilesize:5", 5)):
            status, printed, told = self.checked(f"{text}{field}\n")
            self.assertEqual((status, told, printed.endswith(f"\n{last}files up to {number} MiB\n")), (0, "", True), printed)
        lab = "\nCodename: lab\nArchitectures: amd64\nComponents: main\n"
        for more in ("MaxFileSize: 0", "MaxFileSize: 3", "MaxFileSize: 05", "MaxFileSize: 1025", "MaxFileSize: 5 MiB", "MaxFileSize:", "MaxFileSize: 5\n 6", f"{lab}MaxFileSize: 5"):
            self.assertEqual(self.checked(f"{text}{more}\n"), (1, "", "archive: F3\n"), more)
        self.assertEqual(self.checked(f"{text}MaxFileSize: 9\n{lab}")[:2], (0, self.checked(f"{text}{lab}")[1] + "files up to 9 MiB\n"))
        status, printed, told = self.checked(f"{text}MaxFilesSize: 5\n")
        self.assertEqual((status, told, printed.splitlines()[-2:]), (1, "", ["files count for good", "passed over MaxFilesSize in box, did you mean MaxFileSize"]))

    def test_what_is_passed_over(self):
        text = """Codename: box
Uploader: x
Architectures: amd64
Components: main
valid-days: 7

Codename: lab
Architectures: amd64
Components: main
Colour: red
Component: main
"""
        status, printed, told = self.checked(text)
        self.assertEqual((status, told), (1, ""))
        self.assertEqual(printed.splitlines()[-5:], [
            "files count for good",
            "passed over Uploader in box, did you mean Uploaders",
            "passed over valid-days in box, did you mean ValidDays",
            "passed over Colour in lab",
            "passed over Component in lab, did you mean Components",
        ])

    def test_components_that_no_export_has(self):
        text = """Codename: box
Architectures: amd64
Components: main Release.gpg index.html
Colour: red

Codename: lab
Architectures: amd64
Components: release InRelease Release
"""
        status, printed, told = self.checked(text)
        self.assertEqual((status, told), (1, ""))
        self.assertEqual(printed.splitlines()[-6:], [
            "files count for good",
            "component Release.gpg of box is named as a file of the tree: no export has it",
            "component index.html of box is named as a file of the tree: no export has it",
            "component InRelease of lab is named as a file of the tree: no export has it",
            "component Release of lab is named as a file of the tree: no export has it",
            "passed over Colour in box",
        ])
        self.assertEqual(self.checked(text.replace("Colour: red\n", ""))[0], 1)

    @needs("strace")
    def test_many_lines_are_written_together(self):
        names = [f"X{number}" for number in range(20_000)]
        text = "Codename: box\nArchitectures: amd64\nComponents: main\n" + "".join(f"{name}: y\n" for name in names)
        path, calls = self.file("many.conf", text.encode()), f"{self.folder}/calls"
        ran = subprocess.run(["strace", "-f", "-qq", "-e", "trace=write,writev", "-o", calls, PROGRAM, "check", path], capture_output=True, check=False, timeout=600)
        self.assertEqual((ran.returncode, ran.stderr), (1, b""))
        self.assertEqual(ran.stdout.decode().splitlines()[7:], [f"passed over {name} in box" for name in names])
        with open(calls, encoding="utf-8", errors="replace") as it:
            self.assertLess(len(it.readlines()), 50)

    def test_faults_are_those_of_init(self):
        for text in ("", "Codename: box\n", "Codename: box\nArchitectures: all\nComponents: main\n", "Codename: box\nUploader: x\n"):
            with self.subTest(text):
                path = self.file("bad.conf", text.encode())
                status, printed, told = self.ran("check", path)
                self.assertEqual((status, printed), (1, ""))
                self.assertEqual(told, self.ran("init", "--db", f"{self.folder}/none.db", "--at", "0", path)[2])
                self.assertRegex(told, r"(?m)^archive: F\d")

    def test_a_file_that_cannot_be_read(self):
        self.assertEqual(self.ran("check", f"{self.folder}/nothing"), (1, "", f"archive: cannot read {self.folder}/nothing\n"))


class Exported(Archive):
    """`serve --export`: the folder has what the archive shows, before the next connection is accepted."""

    CONF = "Codename: box\nArchitectures: amd64 source\nComponents: main\n"

    def read(self, path):
        with open(f"{self.folder}/{path}", "rb") as it:
            return it.read()

    def test_a_run_is_exported(self):
        with Serving(self.db, 6, "--export", f"{self.folder}/www", at=MOMENT) as serving:
            for name in NAMES:
                serving.answer(put(name))
            self.assertFalse(os.path.exists(f"{self.folder}/www"))
            serving.answer(b"POST /queue/run HTTP/1.1\r\n\r\n")
            shown = serving.answer(get("dists/box/Release"))
            self.assertTrue(shown.endswith(b"\r\n\r\n" + self.read("www/dists/box/Release")), shown)
            self.assertEqual(self.read(f"www/pool/main/h/hello/{DEB}"), b"abc")
            serving.answer(get("verdicts"))
            self.assertEqual(serving.ended(), (0, "", ""))

    def test_texts_are_there_by_their_digests(self):
        with Serving(self.db, 1, "--export", f"{self.folder}/www", "--by-hash", at=MOMENT) as serving:
            serving.answer(b"POST /queue/run HTTP/1.1\r\n\r\n")
            self.assertEqual(serving.ended(), (0, "", ""))
        text = self.read("www/dists/box/main/binary-amd64/Packages")
        digest = hashlib.sha256(text).hexdigest()
        self.assertEqual(self.read(f"www/dists/box/main/binary-amd64/by-hash/SHA256/{digest}"), text)

    def test_an_export_that_fails_ends_nothing(self):
        self.file("www", b"")
        with Serving(self.db, 2, "--export", f"{self.folder}/www", at=MOMENT) as serving:
            serving.answer(b"POST /queue/run HTTP/1.1\r\n\r\n")
            self.assertEqual(serving.answer(get("verdicts")), replied("200 OK", b""))
            status, printed, told = serving.ended()
        self.assertEqual((status, printed), (0, ""))
        self.assertRegex(told, rf"\Aarchive: cannot write {self.folder}/www.*\n\Z")

    def test_an_export_that_fails_has_a_line_of_the_log(self):
        self.file("www", b"")
        with Serving(self.db, 1, "--log", "--export", f"{self.folder}/www", at=MOMENT) as serving:
            serving.answer(b"POST /queue/run HTTP/1.1\r\n\r\n")
            status, printed, told = serving.ended()
        self.assertEqual((status, printed), (0, ""))
        line, failed, logged = told.splitlines()
        self.assertTrue(line.startswith(f"{MOMENT} POST /queue/run 200 "), told)
        self.assertRegex(failed, rf"\Aarchive: cannot write {self.folder}/www")
        self.assertEqual(logged, f"{MOMENT} export failed: {failed.removeprefix('archive: ')}")

    def test_a_post_after_empty_lines_is_exported(self):
        for number, before in enumerate((b"\r\n", b"\n", b"\n\n\n", b"\r\n\n\r\n\n", b"\n\r\n\n")):
            folder = f"{self.folder}/www{number}"
            with self.subTest(before), Serving(self.db, 2, "--log", "--export", folder, at=MOMENT) as serving:
                serving.answer(before + get("verdicts"))
                self.assertFalse(os.path.exists(folder))
                self.assertTrue(serving.answer(before + b"POST /queue/run HTTP/1.1\r\n\r\n").startswith(b"HTTP/1.1 200 OK\r\n"))
                status, printed, told = serving.ended()
                self.assertEqual((status, printed), (0, ""))
                self.assertEqual([it.split()[1:4] for it in told.splitlines()], [["GET", "/verdicts", "200"], ["POST", "/queue/run", "200"]])
                self.assertTrue(os.path.exists(f"{folder}/dists/box/Release"))

    def test_what_is_no_request_after_empty_lines_is_not_exported(self):
        folder = f"{self.folder}/www"
        with Serving(self.db, 4, "--log", "--export", folder, at=MOMENT) as serving:
            for before in (b"\r", b"\r\n\r", b"\r\n\r\n", b"\n\r\n\r\n"):
                self.assertTrue(serving.answer(before + b"POST /queue/run HTTP/1.1\r\n\r\n").startswith(b"HTTP/1.1 400 "))
            status, printed, told = serving.ended()
        self.assertEqual((status, printed), (0, ""))
        self.assertEqual([it.split()[1:4] for it in told.splitlines()], [["-", "-", "400"]] * 4)
        self.assertFalse(os.path.exists(folder))


if __name__ == "__main__":
    main()
