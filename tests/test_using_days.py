"""Tests of docs/USING.md and docs/OPERATING.md with the built program: what an administrator does on some days. A suite gets another name, an uploader
is let in while clients wait, a suite is emptied or goes back by a whole state, something goes for good, and a later program comes. Each line of the pages
is run by a shell as it is there. The program is that of program.py. If sqlite3, dpkg-deb, curl or diff is not there, the test says that it was
skipped."""
import os
import pathlib
import re
import time

from tests import snippets
from tests.ports import free_port
from tests.snippets import snippet
from tests.test_using_program import Case
from tests.wants import main, needs
from uploads import uploads

AS_ARCHIVE = "runuser -u archive -- "
BOB = "Bob <bob@example.org>"

# A file whose bytes are to go, and how many of them are looked for at once.
LEAKY = "leaky_1.0-1_amd64.deb"
PIECE = 64


def package(name, version="1.0-1"):
    """The files of the upload of a package."""
    return uploads.upload_of(uploads.Package(name, version))


def pieces_of(body):
    return [body[at:at + PIECE] for at in range(0, len(body) - PIECE + 1, PIECE)]


class Days(Case):
    def come(self, *bodies):
        """Has uploads come, each the files of one, and be judged by one run. Answers the lines of that."""
        paths = []
        for number, files in enumerate(bodies):
            folder = f"{self.room.folder}/{time.monotonic_ns()}.{number}"
            paths += uploads.write(folder, files)
        self.room.write("work/list", "".join(f"put {path}\n" for path in paths) + "run\n")
        printed = self.shell('archive batch --db box.db --at "$(date +%s)" list').splitlines()
        self.assertEqual(printed[:len(paths)], [f"new {os.path.basename(path)}" for path in paths])
        return printed[len(paths):]

    def listed(self, suite):
        """The packages that a suite shows, each with its version."""
        return [" ".join(line.split()[:2]) for line in self.shell(f"archive list --db box.db {suite}").splitlines()]

    def has(self, text):
        self.assertEqual(self.shell("archive configuration --db box.db"), text)


class Names(Days):
    def test_a_suite_of_another_name(self):
        self.made()
        self.come(package("hello"))
        self.assertEqual(self.shell(snippet("another name")), "1 hello\n")
        tools = snippet("configuration", {"Codename: box": "Codename: tools"})
        box = snippet("configuration", {"AlsoAcceptFor: unstable\n": ""})
        self.has(f"{tools}\n{box}")
        self.assertEqual([self.listed(it) for it in ("tools", "box")], [["hello 1.0-1"]] * 2)
        # The uploads for the old name still come to the old suite.
        self.come(package("hello", "1.1-1"))
        self.assertEqual([self.listed(it) for it in ("tools", "box")], [["hello 1.0-1"], ["hello 1.1-1"]])
        self.assertEqual(self.shell(snippet("the old name goes")), "1 hello\nremoved 1 hello\n")
        self.has(snippets.changed(tools, {"AlsoAcceptFor: unstable": "AlsoAcceptFor: unstable box"}))
        self.assertEqual(self.listed("tools"), ["hello 1.1-1"])
        self.assertEqual(self.come(package("hello", "1.2-1")), ["accepted hello_1.2-1_amd64.changes"])
        self.assertEqual(self.listed("tools"), ["hello 1.2-1"])

    def test_a_suite_of_another_name_among_others(self):
        """The others keep their paragraphs. The suite has no AlsoAcceptFor."""
        more = "\nCodename: stable\nArchitectures: amd64 source\nComponents: main\nAlsoAcceptFor: bookworm\nUploaders:\n"
        self.made({"AlsoAcceptFor: unstable\n": ""})
        box = snippet("configuration", {"AlsoAcceptFor: unstable\n": ""})
        self.room.write("work/more.conf", box + more)
        self.shell('archive configure --db box.db --at "$(date +%s)" more.conf')
        self.come(package("hello"))
        self.assertEqual(self.shell(snippet("another name")), "1 hello\n")
        tools = snippets.changed(box, {"Codename: box": "Codename: tools"})
        self.has(f"{tools}{more}\n{box}")
        self.assertEqual(self.shell(snippet("the old name goes")), "0 hello\nremoved 1 hello\n")
        self.has(f"{tools}AlsoAcceptFor: box\n{more}")
        self.assertEqual(self.come(package("hello", "1.2-1")), ["accepted hello_1.2-1_amd64.changes"])
        self.assertEqual(self.listed("tools"), ["hello 1.2-1"])

    def test_the_list_of_a_machine(self):
        path = self.room.write("box.list", snippet("trusted"))
        self.shell(snippet("another name on machines", {"/etc/apt/sources.list.d/box.list": path}))
        lines = snippet("trusted").splitlines()
        self.assertEqual(self.room.read("box.list").splitlines(), [f"{line[:-len('box main')]}tools main" for line in lines])


class Uploaders(Days):
    def systemctl(self, port):
        """A systemctl that ends what serves, and begins to serve. An upload begins while nothing serves."""
        line = f'archive serve --db box.db --at "$(date +%s)" 127.0.0.1:{port} 1000'
        upload = f"upload http://127.0.0.1:{port} hello_1.0-1_amd64.changes --run"
        self.room.write("bin/systemctl", f"""#!/bin/sh -e
echo "$*" >> systemctl.log
case $1 in
    stop)
        kill "$(cat served)"
        {upload} > uploaded 2>&1 & ;;
    start) {line} > serve.log 2>&1 & echo $! > served ;;
esac
""", 0o755)

    @needs("dpkg-deb")
    def test_one_uploader_more(self):
        self.made({"hello by anybody": "hello by Ann <ann@example.org>"})
        world = package("world")
        by_bob = world["world_1.0-1_amd64.changes"].replace(b"Changed-By: Ann <ann@example.org>", f"Changed-By: {BOB}".encode())
        self.assertNotEqual(by_bob, world["world_1.0-1_amd64.changes"])
        self.assertEqual(self.come({**world, "world_1.0-1_amd64.changes": by_bob}), ["refused 3 world_1.0-1_amd64.changes"])
        for name, body in package("hello").items():
            pathlib.Path(self.room.work, name).write_bytes(body)
        port = free_port()
        self.systemctl(port)
        self.addCleanup(self.room.run, "kill $(cat served)")
        self.shell("mkdir copies; systemctl start boqitsel")
        printed = self.shell(snippet("one uploader more", {AS_ARCHIVE: ""}))
        rules = [" uploads * by Bob <bob@example.org>", " uploads * by Ann <ann@example.org>", " uploads hello by Ann <ann@example.org>"]
        self.assertEqual([line for line in printed.splitlines() if line.startswith(" uploads ")], rules)
        self.assertEqual(self.room.read("work/systemctl.log").splitlines()[1:], ["stop boqitsel", "start boqitsel"])
        self.assertEqual(self.room.read("work/old.conf"), self.room.read("work/box.conf"))
        # The client that met nobody has gone on.
        end = time.monotonic() + 300
        while "accepted" not in self.room.read("work/uploaded") and time.monotonic() < end:
            time.sleep(0.1)
        self.assertTrue(self.room.read("work/uploaded").endswith("accepted hello_1.0-1_amd64.changes\n"), self.room.read("work/uploaded"))
        # The verdict is final, and the same upload is taken under another name.
        self.room.write("work/again.changes", by_bob.decode())
        self.shell("kill $(cat served); archive put --db box.db --at 4000000000 again.changes")
        self.assertEqual(self.shell("archive run --db box.db --at 4000000000"), "accepted again.changes\n")


    def test_one_uploader_of_a_suite(self):
        """The suites that let in nobody stay so."""
        old = snippet("three suites")
        self.room.write("work/old.conf", old)
        self.shell(snippet("one uploader of a suite"))
        self.assertEqual(self.room.read("work/new.conf"), old.replace("Uploaders:\n * by Ann", f"Uploaders:\n * by {BOB}\n * by Ann", 1))
        rules = [line for line in self.shell("archive check new.conf").splitlines() if line.startswith((" uploads", "suite"))]
        self.assertEqual(sum("Bob" in line for line in rules), 1)


class States(Days):
    def test_a_whole_state_goes_and_comes_back(self):
        self.made_with_three()
        self.come(package("hello"), package("world"))
        self.assertEqual(self.shell(snippet("promote what may go back")), "1 hello\n1 world\n")
        self.come(package("hello", "1.1-1"), package("bad"))
        status, printed, told = self.room.run(snippet("what a promotion would change"))
        lines = [line for line in printed.splitlines() if line[0] in "<>"]
        wanted = ["< hello 1.0-1 amd64 main hello", "> bad 1.0-1 amd64 main bad", "> hello 1.1-1 amd64 main hello"]
        self.assertEqual((status, sorted(lines), told), (1, wanted, ""))
        before, after = ["hello 1.0-1", "world 1.0-1"], ["bad 1.0-1", "hello 1.1-1", "world 1.0-1"]
        saved = "1 hello\n1 world\n", "1 bad\n1 hello\n0 world\n"
        self.assertEqual(self.shell(snippet("promote what may go back")), "".join(saved))
        self.assertEqual([self.listed(it) for it in ("stable", "previous")], [after, before])
        gone = "removed 1 bad\nremoved 1 hello\nremoved 1 world\n"
        self.assertEqual(self.shell(snippet("go back by a whole state")), f"{gone}1 hello\n1 world\n")
        self.assertEqual([self.listed(it) for it in ("stable", "previous")], [before, before])
        # It may be given again, and so may the promotion.
        self.assertEqual(self.shell(snippet("go back by a whole state")), "removed 1 hello\nremoved 1 world\n1 hello\n1 world\n")
        self.assertEqual(self.shell(snippet("promote what may go back")), f"removed 1 hello\nremoved 1 world\n{''.join(saved)}")
        self.assertEqual([self.listed(it) for it in ("testing", "stable", "previous")], [after, after, before])
        self.assertEqual(self.shell(snippet("empty", {"lab": "stable"})), gone)
        self.assertEqual([self.listed(it) for it in ("testing", "stable", "previous")], [after, [], before])

    @needs("curl")
    def test_what_differs_between_two_suites_that_are_served(self):
        self.made_with_three()
        self.come(package("hello"), package("world"))
        self.shell(snippet("promote what may go back"))
        self.come(package("hello", "1.1-1"), package("bad"))
        printed = self.shell(snippet("what differs", {"127.0.0.1:8080": f"127.0.0.1:{self.serve()}"}))
        wanted = ["\tbad 1.0-1 amd64 main bad", "\thello 1.1-1 amd64 main hello", "hello 1.0-1 amd64 main hello"]
        self.assertEqual(sorted(printed.splitlines()), wanted)


class Services(Days):
    """Programs in front of systemctl and runuser do what those would."""

    def test_a_line_is_given_with_the_service_stopped(self):
        self.made()
        self.serve()
        self.room.write("bin/systemctl", f'#!/bin/sh -e\n[ "$*" = "stop boqitsel" ]\nkill {self.process.pid}\n', 0o755)
        self.room.write("bin/runuser", '#!/bin/sh -e\n[ "$1 $2 $3" = "-u archive --" ]\nshift 3\nexec "$@"\n', 0o755)
        self.room.write("work/lines", "archive configuration --db box.db\n")
        stop = snippet("stop", {"/srv/box": self.room.work})
        self.assertEqual(self.shell(f"{{\n{stop}}} < lines"), snippet("configuration"))

    def test_upgrading_the_package(self):
        """The service is restarted if the new program opens a copy, and not if it does not."""
        self.made()
        self.room.write("bin/systemctl", '#!/bin/sh\necho "$*" >> systemctl.log\n', 0o755)
        self.room.write("work/install", "#!/bin/sh\n", 0o755)
        upgrade = snippet("upgrade", {AS_ARCHIVE: "", "apt install ./boqitsel_VERSION_amd64.deb": "./install"})
        self.assertRegex(self.shell(f"mkdir copies\n{upgrade}"), r"\A(copies/\d{8}T\d{6}Z(-\d+)?/box\.db\n){2}\Z")
        self.assertEqual(self.room.read("work/systemctl.log"), "daemon-reload\nrestart boqitsel\n")
        # In the room the program is a link, in place of which comes one that opens nothing.
        program = f"{self.room.folder}/bin/archive"
        self.room.write("work/install", f"#!/bin/sh -e\nrm {program}\nln -s /bin/false {program}\n", 0o755)
        status, printed, _ = self.room.run(upgrade)
        self.assertEqual((status, printed.count("\n")), (1, 1))
        self.assertEqual(self.room.read("work/systemctl.log"), "daemon-reload\nrestart boqitsel\n")

    def test_upgrading_a_package_that_has_no_backup(self):
        """As that of 1.0.0: the new one brings it, and the copy of the second line is there before the restart."""
        self.made()
        self.room.write("bin/systemctl", '#!/bin/sh\nls copies/*/box.db > before && echo "$*" >> systemctl.log\n', 0o755)
        backup = f"{self.room.folder}/bin/backup"
        os.rename(backup, f"{backup}.new")
        self.room.write("work/install", f"#!/bin/sh -e\nmv {backup}.new {backup}\n", 0o755)
        first, second = snippet("upgrade", {AS_ARCHIVE: "", "apt install ./boqitsel_VERSION_amd64.deb": "./install"}).splitlines()
        made, _, begin = first.partition(" && ")
        self.assertEqual(self.room.run(made)[0], 127)
        self.assertRegex(self.shell(f"mkdir -p copies\n{begin}\n{second}\n"), r"\Acopies/\d{8}T\d{6}Z(-\d+)?/box\.db\n\Z")
        self.assertEqual(self.room.read("work/systemctl.log"), "daemon-reload\nrestart boqitsel\n")


class Gone(Days):
    def found(self, *paths):
        """The number of the secret's pieces that are in these files, and in the files of these folders."""
        files = [it for path in paths for it in ([path] if path.is_file() else path.rglob("*")) if it.is_file() and not it.is_symlink()]
        bodies = [it.read_bytes() for it in files]
        return sum(any(piece in body for body in bodies) for piece in self.pieces)

    def in_file(self):
        """The number that is in the database, and in the files beside it."""
        return self.found(*pathlib.Path(self.room.work).glob("box.db*"))

    @needs("sqlite3")
    def test_something_goes_for_good(self):
        """A body of no pattern, and a line of its control file, which is in the indices, too."""
        self.made()
        work = pathlib.Path(self.room.work)
        body, line = os.urandom(60_000), os.urandom(1000).hex().encode()
        control = uploads.control_of(uploads.Package("leaky")) + b" " + line + b"\n"
        self.pieces = pieces_of(body) + pieces_of(line)
        self.come(uploads.upload_with("leaky", "1.0-1", body, control), package("world"))
        (work / LEAKY).write_bytes(body)
        self.shell("archive export --db box.db www; mkdir copies; backup box.db copies")
        self.assertEqual(self.found(work / "www"), len(self.pieces))
        # A few pieces are cut by the ends of pages.
        for count in (self.in_file(), self.found(work / "copies")):
            self.assertGreater(count, 0.9 * len(self.pieces))
        self.assertRegex(self.shell(snippet("who shows it")), rf'\Abox \{{.*"path":"pool/main/l/leaky/{re.escape(LEAKY)}".*\}}\n\Z')
        self.assertEqual(self.shell(snippet("is it there")), "1\n")
        # Without the last line its bytes are in pages that nothing uses.
        *lines, last = snippet("for good").splitlines(keepends=True)
        self.assertEqual(self.shell("".join(lines)), "1\n6\n")
        self.assertEqual(self.shell(snippet("is it there")), "0\n")
        self.assertGreater(self.in_file(), 0)
        self.assertEqual(self.shell(last), "0|0|0\n")
        self.assertEqual(self.in_file(), 0)
        printed = self.shell(snippet("tree anew"))
        self.assertRegex(printed, r"\Ashown box \.box\.[0-9a-f]{32}\npool 1 0 0 0\ncopies/\S+/box\.db\n\Z")
        # The archive opens, and has all that it had before.
        self.has(snippet("configuration"))
        self.assertEqual(self.listed("box"), ["world 1.0-1"])
        self.assertEqual(self.shell("archive verdicts --db box.db"), "accepted leaky_1.0-1_amd64.changes\naccepted world_1.0-1_amd64.changes\n")
        (work / LEAKY).unlink()
        self.assertEqual([self.found(it) for it in (work / "www", work / "copies", work)], [0, 0, 0])
        self.assertEqual(sorted(it.name for it in work.iterdir() if it.name.startswith("www")), ["www"])
        self.assertEqual(len([it for it in (work / "copies").iterdir() if not it.name.startswith(".")]), 1)


if __name__ == "__main__":
    main()
