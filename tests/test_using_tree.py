"""Tests of docs/OPERATING.md, of the tree that `archive export` makes, with the built program: what nginx hands out of it by the page's text, its
signature with apt, and copies of it by rsync and by rclone, which are looked at after each of their steps. The program is that of program.py. If a
tool is not there, the test says that it was skipped."""
import base64
import hashlib
import http.client
import os
import pathlib
import re
import shutil
import ssl
import subprocess
import sys
import threading
import time

from tests import snippets
from tests.ports import free_port
from tests.program import PROGRAM
from tests.snippets import built, commands_of, snippet
from tests.wants import main, missing, needs, needs_file, needs_root
from uploads import uploads

HELLO = uploads.Package("hello", source=True)
DEB = "pool/main/h/hello/hello_1.0-1_amd64.deb"
KEYRING = "/usr/share/keyrings/box.gpg"
LOGIN = "ann:a secret"
SHA256 = re.compile(r"^ ([0-9a-f]{64}) \d+ (\S+)$", re.M)


def named(index):
    """The files that a text of Packages or Sources names: the digest of each by its path."""
    found = {}
    for paragraph in index.split("\n\n"):
        fields = dict(re.findall(r"^([A-Za-z0-9-]+):(.*(?:\n .*)*)$", paragraph, re.M))
        if "Filename" in fields:
            found[fields["Filename"].strip()] = fields["SHA256"].strip()
        for digest, name in SHA256.findall(fields.get("Checksums-Sha256", "")):
            found[f"{fields['Directory'].strip()}/{name}"] = digest
    return found


def digest(path):
    return hashlib.sha256(pathlib.Path(path).read_bytes()).hexdigest()


def faults(tree, dists):
    """What a reader misses of the folders in `dists`, each of a suite as he found it: files that an index names, with their contents."""
    found = []
    for folder in dists:
        for index in (*folder.glob("main/*/Packages"), *folder.glob("main/*/Sources")):
            for path, wanted in named(index.read_text(encoding="utf-8")).items():
                if not os.path.exists(f"{tree}/{path}"):
                    found.append(f"{index} names {path}, which is not there")
                elif digest(f"{tree}/{path}") != wanted:
                    found.append(f"{index} names other contents of {path}")
    return found


def suites(tree):
    """The folders that suites show in a tree."""
    return [it.resolve(strict=True) for it in pathlib.Path(tree, "dists").iterdir() if not it.name.startswith(".")]


def listed(folder):
    """The texts that the Release of a folder lists: the digest of each by its path."""
    text = (folder / "Release").read_text(encoding="utf-8").partition("SHA256:\n")[2]
    return {path: wanted for wanted, path in SHA256.findall(text)}


class Watch:
    """A reader of a copy, which looks at it again and again, while it is made."""

    def __init__(self, tree):
        self.tree, self.count, self.faults, self.is_done = tree, 0, [], threading.Event()
        self.thread = threading.Thread(target=self.read)

    def __enter__(self):
        self.thread.start()
        return self

    def __exit__(self, *_):
        self.is_done.set()
        self.thread.join()

    def read(self):
        while not self.is_done.is_set():
            if os.path.exists(f"{self.tree}/dists/box"):
                try:
                    self.faults += faults(self.tree, suites(self.tree))
                except FileNotFoundError as error:
                    self.faults.append(str(error))
                self.count += 1
            time.sleep(0.001)


@needs_file(PROGRAM)
@needs("dpkg-deb")
class Case(snippets.Case):
    """A test with an archive that shows the package hello."""

    def setUp(self):
        super().setUp()
        self.room.variables["RCLONE_CONFIG"] = f"{self.room.folder}/rclone.conf"
        self.room.write("rclone.conf", f"[store]\ntype = alias\nremote = {self.room.folder}/store\n")
        self.room.write("work/box.conf", snippet("configuration"))
        self.shell('archive init --db box.db --at "$(date +%s)" box.conf')
        self.upload(HELLO)

    def upload(self, package, more=()):
        """Has the archive judge a package, whose source may list more files."""
        self.shell(f"with_sidecars {built(self.room.folder, package, more)} ready > files")
        printed = self.shell('archive put --db box.db --at "$(date +%s)" $(cat files); archive run --db box.db --at "$(date +%s)"')
        self.assertIn(f"accepted {package.name}_{package.version}_amd64.changes\n", printed)

    def remove(self, name):
        self.shell(f'archive remove --db box.db --at "$(date +%s)" box {name}')

    def export(self, words=""):
        return self.shell(f"archive export --db box.db {words} www")

    def served(self, text=None, **changes):
        """Has nginx hand the tree out, by the page's text or another. Answers its address, and its port."""
        port = free_port()
        changes = {"/srv/box/www": f"{self.room.work}/www", **changes}
        self.room.start(["nginx", "-c", self.room.nginx(text or snippet("tree by nginx"), port, changes)], port=port)
        return f"https://localhost:{port}", port

    def by_python(self, tree):
        """Has another server hand a tree out. Answers its address."""
        port = free_port()
        self.room.start([sys.executable, "-m", "http.server", "-d", tree, "-b", "127.0.0.1", str(port)], port=port)
        return f"http://127.0.0.1:{port}"

    def check_apt(self, sources, name="hello", version="1.0-1"):
        """Checks that an apt with this list finds a package, and finds nothing wrong. Answers what it prints."""
        self.room.apt(sources)
        ran = self.room.run(f"rm -rf got; mkdir got; cd got; apt-get update && apt-get download {name}={version}")
        self.assertEqual((ran[0], ran[2]), (0, ""), ran)
        deb = f"{name}_{version}_amd64.deb"
        self.assertEqual(digest(f"{self.room.work}/got/{deb}"), digest(f"{self.room.folder}/{deb}"))
        return ran[1]


@needs("nginx", "openssl", "curl")
class Nginx(Case):
    def connected(self, port):
        context = ssl.create_default_context(cafile=self.room.certificate()[0])
        connection = http.client.HTTPSConnection("localhost", port, timeout=120, context=context)
        self.addCleanup(connection.close)
        connection.connect()
        return connection

    def asked(self, connection, path, method="GET", **headers):
        """The reply to a request, and its body."""
        connection.request(method, f"/{path}", headers={name.replace("_", "-"): value for name, value in headers.items()})
        reply = connection.getresponse()
        return reply, reply.read()

    def status(self, url, path, words=""):
        return self.shell(f"curl -sS --path-as-is -o /dev/null -w '%{{http_code}}' {words} {url}/{path}")

    def setUp(self):
        super().setUp()
        self.room.variables["CURL_CA_BUNDLE"] = self.room.certificate()[0]

    def test_what_a_client_gets(self):
        self.export()
        _, port = self.served()
        body = pathlib.Path(self.room.folder, "hello_1.0-1_amd64.deb").read_bytes()
        connection = self.connected(port)
        socket = connection.sock
        reply, got = self.asked(connection, DEB)
        self.assertEqual((reply.status, got, reply.version), (200, body, 11))
        self.assertEqual([reply.getheader(it) for it in ("Content-Length", "Accept-Ranges", "Cache-Control")], [str(len(body)), "bytes", "no-cache"])
        self.assertEqual((bool(reply.getheader("ETag")), bool(reply.getheader("Last-Modified"))), (True, True))
        reply, got = self.asked(connection, DEB, "HEAD")
        self.assertEqual((reply.status, got, reply.getheader("Content-Length")), (200, b"", str(len(body))))
        reply, got = self.asked(connection, DEB, Range="bytes=10-")
        self.assertEqual((reply.status, got, reply.getheader("Content-Range")), (206, body[10:], f"bytes 10-{len(body) - 1}/{len(body)}"))
        reply, _ = self.asked(connection, DEB, Range=f"bytes={len(body)}-")
        self.assertEqual(reply.status, 416)
        reply, got = self.asked(connection, "")
        self.assertEqual((reply.status, reply.getheader("Content-Type").split(";")[0], got[:15]), (200, "text/html", b"<!doctype html>"))
        # A Release that the client has is not sent again, and a newer one is, also one of the same second.
        reply, first = self.asked(connection, "dists/box/Release")
        moment, tag = reply.getheader("Last-Modified"), reply.getheader("ETag")
        self.assertEqual(self.asked(connection, "dists/box/Release", If_Modified_Since=moment)[0].status, 304)
        self.assertEqual(self.asked(connection, "dists/box/Release", If_None_Match=tag)[0].status, 304)
        self.upload(uploads.Package("another"))
        self.export()
        reply, second = self.asked(connection, "dists/box/Release", If_Modified_Since=moment)
        self.assertEqual((reply.status, first == second), (200, False))
        self.assertEqual(self.asked(connection, "dists/box/Release", If_None_Match=tag)[0].status, 200)
        # All that went over one connection.
        self.assertIs(connection.sock, socket)

    def test_each_page_has_its_policy_and_no_other_is_a_page(self):
        self.upload(uploads.Package("evil", source=True), snippets.EVIL)
        self.export()
        self.room.write("uploaders", f"{LOGIN.replace(':', ':{PLAIN}')}\n")
        _, port = self.served()
        connection = self.connected(port)
        login = {"Authorization": f"Basic {base64.b64encode(LOGIN.encode()).decode()}"}
        names = "Content-Type", "Content-Disposition", "X-Content-Type-Options", "Content-Security-Policy", "Cache-Control"
        for path in ("", "index.html", "uploads.html", "dists/box/", "dists/box/index.html"):
            reply, body = self.asked(connection, path, **login)
            [policy] = re.findall(r'<meta http-equiv="Content-Security-Policy" content="([^"]*)">', body.decode())
            self.assertEqual((reply.status, [reply.getheader(it) for it in names]), (200, ["text/html", None, "nosniff", policy, "no-cache"]), path)
        for name in (*snippets.EVIL, "evil_1.0-1.dsc", "evil_1.0-1_amd64.deb"):
            wanted = ["application/octet-stream", "attachment", "nosniff", "default-src 'none'; sandbox", "no-cache"]
            for front in ("pool/main", "/pool//main", "dists/box/../../pool/main", "%70ool/main"):
                path = f"{front}/e/evil/{name}"
                reply, _ = self.asked(connection, path)
                self.assertEqual((reply.status, [reply.getheader(it) for it in names]), (200, wanted), path)
        others = ("dists/box/Release", 200), ("dists/box/main/source/Sources", 200), ("uploads.html", 401), ("pool/none.html", 404), ("none.html", 404)
        for path, wanted in others:
            reply, _ = self.asked(connection, path)
            self.assertEqual((reply.status, reply.getheader("X-Content-Type-Options")), (wanted, "nosniff"), path)
            self.assertIn("default-src 'none'; ", reply.getheader("Content-Security-Policy"))

    @needs("chromium")
    def test_a_browser_runs_no_file_of_the_pool(self):
        """It does by a text that has no location for the pool, and no policy: so these would be seen here."""
        self.upload(uploads.Package("evil", source=True), snippets.EVIL)
        self.export()
        text = snippet("tree by nginx")
        open_text = re.sub(r"(?ms)^    location /pool/ \{.*?^    \}\n|^    add_header (?:X|Content)-[^\n]*\n", "", text)
        for it, wanted in ((text, []), (open_text, sorted(snippets.EVIL))):
            log = f"{self.room.folder}/log{len(wanted)}"
            url, _ = self.served(it, server_name=f"access_log {log}; server_name")
            asked = self.room.framed(url, [f"pool/main/e/evil/{name}" for name in snippets.EVIL], log)
            self.assertIn('"GET /done ', asked)
            self.assertEqual(sorted(re.findall(r'"GET /ran/(\S+) ', asked)), wanted)
            self.assertEqual(sorted(re.findall(r'"GET /pool/main/e/evil/(\S+) HTTP/[\d.]+" 200 ', asked)), sorted(snippets.EVIL))
            # The pages themselves are as they were made.
            self.assertIn(f'<span class="url">{url}/</span>', self.room.browsed(f"{url}/index.html"))

    def test_what_is_not_handed_out(self):
        self.export()
        [state] = {os.readlink(f"{self.room.work}/www/dists/box")}
        self.room.write("work/www/dists/.box.new/Release", "half a state\n")
        self.room.write("uploaders", f"{LOGIN.replace(':', ':{PLAIN}')}\n")
        url, _ = self.served()
        for path in (".boqitsel/files", ".boqitsel/lock", ".boqitsel/", "dists/.box.new/Release", f"dists/{state}/Release", f"dists/box/../{state}/Release",
                     f"dists/%2e{state[1:]}/Release", "other"):
            self.assertEqual(self.status(url, path), "404", path)
        for path in ("dists/box/Release", "/dists/box//main/binary-amd64/Packages", "dists/box/", "index.html", DEB):
            self.assertEqual(self.status(url, path), "200", path)
        self.assertEqual((self.status(url, "uploads.html"), self.status(url, "uploads.html", f"-u '{LOGIN}'")), ("401", "200"))

    def test_uploads_beside_the_tree(self):
        """The last three locations of the proxy go beside those of the tree."""
        self.export()
        *_, incoming, run, lists, _ = re.split(r"(?m)^(?=    location |\})", snippet("nginx"))
        limit = re.search(r"    client_max_body_size.*\n", snippet("nginx"))[0]
        text = re.sub(r"(?m)^\}", f"{limit}{incoming}{run}{lists}}}", snippet("tree by nginx"))
        self.room.write("uploaders", f"{LOGIN.replace(':', ':{PLAIN}')}\n")
        behind = free_port()
        self.room.start(["archive", "serve", "--db", "box.db", "--at", str(int(time.time())), f"127.0.0.1:{behind}", "100"], port=behind)
        url, _ = self.served(text, **{"http://127.0.0.1:8080": f"http://127.0.0.1:{behind}"})
        words = f"-H 'Expect:' -T {self.room.folder}/hello_1.0-1_amd64.changes"
        self.assertEqual(self.status(url, "incoming/again.changes", words), "401")
        self.assertEqual(self.status(url, "incoming/again.deb", f"{words} -u '{LOGIN}'"), "201")
        self.assertEqual((self.status(url, "verdicts"), self.status(url, "verdicts", f"-u '{LOGIN}'")), ("401", "200"))
        self.assertEqual((self.status(url, "why"), self.status(url, "why", f"-u '{LOGIN}'")), ("401", "200"))
        self.assertEqual((self.status(url, "queue/run", "-X POST"), self.status(url, "queue/run", f"-X POST -u '{LOGIN}'")), ("401", "200"))
        self.assertEqual((self.status(url, "dists/box/Release"), self.status(url, "queue/clean", "-X POST")), ("200", "404"))

    def with_key(self):
        """Makes the page's key."""
        self.addCleanup(subprocess.run, ["gpgconf", "--kill", "all"], env=self.room.variables, check=False)
        status, _, told = self.room.run(f"{snippet('key')}gpg --export archive@example.org > key.gpg")
        self.assertEqual(status, 0, told)

    def signed_list(self, url):
        return snippet("signed", {KEYRING: f"{self.room.work}/key.gpg", "https://archive.example.org": url})

    def check_signed(self, url, name="hello", version="1.0-1"):
        """Checks that apt takes a tree by its key alone, and says nothing of a signature that is missing."""
        self.assertNotIn("signed", self.check_apt(self.signed_list(url), name, version))

    @needs("gpg", "apt-get")
    def test_a_signed_tree(self):
        self.with_key()
        url, _ = self.served()
        # Without a signature this list does not do.
        self.export()
        self.room.apt(self.signed_list(url))
        status, _, told = self.room.run("apt-get update")
        self.assertEqual((status, "is not signed" in told), (100, True), told)
        shutil.rmtree(f"{self.room.work}/www")
        status, printed, told = self.room.run(snippet("signed tree"))
        self.assertEqual((status, printed.splitlines()[0][:10]), (0, "shown box "), told)
        self.check_signed(url)
        self.install(url)
        self.upload(uploads.Package("hello", version="1.0-2"))
        # Until it is signed, the suite shows what it showed.
        self.assertTrue(self.export("--signed").startswith("waits box .box."))
        self.check_signed(url)
        self.assertEqual(self.room.run(snippet("signed tree"))[0], 0)
        self.check_signed(url, version="1.0-2")
        self.shell("gpg --export archive@example.org > www/box.gpg")
        self.export("--signed")
        self.shell(f"curl -sS --fail -o got.gpg {url}/box.gpg; cmp got.gpg key.gpg")

    def install(self, url):
        """Has apt install the package into a root of its own."""
        self.room.apt(self.signed_list(url))
        root = f"{self.room.folder}/root"
        for name in ("info", "updates", "triggers"):
            os.makedirs(f"{root}/var/lib/dpkg/{name}")
        self.room.write("root/var/lib/dpkg/status", "")
        words = f"-o Dir::State::status={root}/var/lib/dpkg/status -o DPkg::Options::=--root={root} -o DPkg::Options::=--force-not-root"
        status, printed, told = self.room.run(f"apt-get update {words}; apt-get install -y {words} hello")
        self.assertEqual((status, "signed" in printed + told, "authenticated" in printed + told), (0, False, False), (printed, told))
        self.assertEqual(self.shell(f"dpkg-query --admindir={root}/var/lib/dpkg -W hello"), "hello\t1.0-1\n")

    @needs("gpg", "apt-get")
    def test_signing_while_the_service_exports(self):
        self.with_key()
        status, _, told = self.room.run(snippet("signed tree"))
        self.assertEqual(status, 0, told)
        behind = free_port()
        line = commands_of(snippet("export.conf", {"/usr/local/bin/": "", "127.0.0.1:8080": f"127.0.0.1:{behind}"}))[-1][-1]
        self.room.write("work/now", f"{int(time.time())}\n")
        self.room.start(["sh", "-c", line], port=behind)
        self.room.write("work/sign-tree", snippet("sign-tree", {"127.0.0.1:8080": f"127.0.0.1:{behind}"}), 0o755)
        url, _ = self.served()
        self.check_signed(url)
        for number in range(2, 5):
            package = uploads.Package("hello", version=f"1.0-{number}")
            self.shell(f"with_sidecars {built(self.room.folder, package)} ready > files")
            self.room.write("work/now", f"{int(time.time()) + number}\n")
            self.shell(f"for file in $(cat files); do curl -sS --fail -H 'Expect:' -T $file http://127.0.0.1:{behind}/incoming/; done")
            self.assertIn("accepted", self.shell(f"curl -sS --fail-with-body -X POST http://127.0.0.1:{behind}/queue/run"))
            self.check_signed(url, version=f"1.0-{number - 1}")
            status, _, told = self.room.run("./sign-tree")
            self.assertEqual(status, 0, told)
            self.shell(f"curl -sS http://127.0.0.1:{behind}/queue")
            self.check_signed(url, version=f"1.0-{number}")
        # If nothing is to be signed, nothing is done.
        self.assertEqual(self.room.run("./sign-tree"), (0, "", ""))


class ByHand(Case):
    """What another configuration, and another user, do to a tree."""

    def test_a_suite_that_is_gone_is_taken_away(self):
        lab = "\nCodename: lab\nArchitectures: amd64 source\nComponents: main\n"
        self.room.write("work/more.conf", snippet("configuration") + lab)
        self.shell('archive configure --db box.db --at "$(date +%s)" more.conf')
        dists = pathlib.Path(self.room.work, "www/dists")
        for words in ("", "--by-hash"):
            self.assertIn("shown lab ", self.export(words))
            self.shell("archive promote --db box.db --at \"$(date +%s)\" box lab")
            self.export(words)
            self.shell("archive remove --db box.db --at \"$(date +%s)\" lab hello")
            self.shell('archive configure --db box.db --at "$(date +%s)" box.conf')
            # As the page says, the next export takes it away.
            self.assertTrue((dists / "lab/Release").exists())
            self.assertRegex(self.export(words), r"\A(shown box .*|same box)\ngone lab\npool .*\n\Z")
            self.assertEqual([it.name for it in dists.iterdir() if "lab" in it.name], [])
            self.assertNotIn("lab", self.export(words))
            self.assertEqual(faults(f"{self.room.work}/www", suites(f"{self.room.work}/www")), [])
            # If it comes again, it is shown again.
            self.shell('archive configure --db box.db --at "$(date +%s)" more.conf')

    @needs_root
    @needs("setpriv")
    def test_a_tree_of_which_a_part_is_of_root(self):
        """A file in place of the signature does here: that is what an export looks for."""
        user = "setpriv --reuid 65534 --regid 65534 --clear-groups"
        sign = f"for state in www/dists/.box.*; do {user} touch $state/InRelease; done"
        os.chmod(self.room.folder, 0o755)
        if self.room.run(f"{user} archive --version")[0]:
            raise missing("right of another user to run the program")
        self.shell(f"chown -R 65534:65534 .; {user} archive export --db box.db --signed www; {sign}")
        self.assertIn("shown box ", self.shell(f"{user} archive export --db box.db --signed www"))
        # What happens if root forgets the user. Whoever forgets the signature, too, is refused.
        self.upload(uploads.Package("another"))
        told = "archive: suite box is signed in the tree: give --signed or --unsigned\n"
        self.assertEqual(self.room.run("archive export --db box.db www"), (1, "", told))
        self.assertIn("unsigned box\n", self.export("--unsigned"))
        self.upload(uploads.Package("avahi"))
        self.shell("chown 65534:65534 box.db*")
        status, _, told = self.room.run(f"{user} archive export --db box.db --signed www")
        self.assertEqual((status, told[:26]), (3, "archive: cannot write www/"))
        # The page's lines, of another user.
        printed = self.shell(snippet("tree of another user", {"archive: ": "65534:65534 ", "runuser -u archive --": user}))
        self.assertTrue(printed.startswith("waits box ."), printed)
        self.shell(sign)
        self.assertIn("shown box ", self.shell(f"{user} archive export --db box.db --signed www"))
        self.assertEqual(self.shell("find box.db* www ! -user 65534"), "")


class Copies(Case):
    """Copies of the tree, which are kept as they were after each step."""

    def kept(self, name, copy):
        """Puts a program in front of a tool, which copies what the tool has made after each call, and tries an export meanwhile."""
        steps = f"{self.room.folder}/steps"
        text = f"""#!/bin/sh -e
        {shutil.which(name)} "$@"
        mkdir -p {steps}
        cp -a {copy} {steps}/$(ls {steps} | wc -l)
        ! archive export --db box.db www 2>> ../refused
        """
        self.room.write(f"bin/{name}", text, 0o755)

    def steps(self):
        """The copies after each step since this was asked, in their order."""
        folder, moved = f"{self.room.folder}/steps", f"{self.room.folder}/{time.monotonic_ns()}"
        os.rename(folder, moved)
        return [pathlib.Path(moved, it) for it in sorted(os.listdir(moved), key=int)]

    def changes(self):
        """Changes what the suite shows, and exports, again and again."""
        self.export("--by-hash")
        yield
        for change in (
            lambda: self.upload(uploads.Package("another", source=True)),
            lambda: self.upload(uploads.Package("hello", version="1.0-2", source=True)),
            lambda: self.remove("another"),
            lambda: self.upload(uploads.Package("third")),
            lambda: None,
        ):
            change()
            self.export("--by-hash")
            yield

    def check_refused(self, count):
        """Checks that each export was refused that came while a copy was made."""
        self.assertEqual(self.room.read("refused"), "archive: cannot write www/.boqitsel/lock\n" * count)

    @needs("rsync", "flock")
    def test_a_mirror(self):
        copy = f"{self.room.folder}/mirror"
        self.kept("rsync", copy)
        text = snippet("tree by rsync", {"mirror.example.org:/srv/www/": f"{copy}/"})
        rounds = 0
        with Watch(copy) as watch:
            for _ in self.changes():
                self.assertEqual(self.shell(text), "")
                first, second = self.steps()
                rounds += 1
                if rounds > 1:
                    self.assertEqual(faults(first, suites(first)), [])
                # The states that the links will lead to are there before them.
                self.assertEqual(faults(first, [first / "dists" / os.readlink(second / "dists/box")]), [])
                self.assertEqual(faults(second, suites(second)), [])
                # A client that has read the index before finds its files, too.
                if rounds > 1:
                    self.assertEqual(faults(second, suites(first)), [])
                self.assertEqual(self.shell(f"diff -r --no-dereference -x .boqitsel www {copy}"), "")
        self.assertEqual((watch.faults, watch.count > 0), ([], True))
        self.assertFalse(os.path.exists(f"{copy}/.boqitsel"))
        self.check_refused(2 * rounds)
        self.check_apt(f"deb [trusted=yes] {self.by_python(copy)} box main\n", "third")

    @needs("rclone", "flock")
    def test_an_object_store(self):
        copy = f"{self.room.folder}/store"
        self.kept("rclone", copy)
        text, rounds = snippet("tree by rclone"), 0
        for _ in self.changes():
            self.assertEqual(self.room.run(text), (0, "", ""))
            steps = self.steps()
            self.assertEqual(len(steps), 4)
            rounds += 1
            for step in steps if rounds > 1 else steps[2:]:
                step = step / "box"
                self.assertEqual(faults(step, suites(step)), [])
                # Each text that Release lists is there by its digest.
                for folder in suites(step):
                    for path, wanted in listed(folder).items():
                        self.assertEqual(digest(folder / os.path.dirname(path) / "by-hash/SHA256" / wanted), wanted)
            last = steps[-1] / "box"
            for folder in suites(last):
                self.assertEqual({path: digest(folder / path) for path in listed(folder)}, listed(folder))
            self.assertEqual(sorted(it.name for it in last.iterdir()), ["dists", "index.html", "pool"])
            self.assertEqual([it for it in last.rglob("*") if it.is_symlink() or it.name.startswith(".")], [])
            self.assertEqual(self.shell(f"diff -r www/pool {copy}/box/pool; diff -r www/dists/box/ {copy}/box/dists/box"), "")
        self.check_refused(4 * rounds)
        url = self.by_python(f"{copy}/box")
        for words in ("trusted=yes", "trusted=yes by-hash=force"):
            self.check_apt(f"deb [{words}] {url} box main\n", "third")


if __name__ == "__main__":
    main()
