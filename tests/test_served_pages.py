"""Tests of the pages that a served archive answers: their heads, the same pages as an export has, where their links lead, what apt makes of the texts
that are copied from them, and what a browser makes of hostile texts and names. Rows of what is refused are in tests/questions/pages.rows. The
program is that of program.py. If apt, gpg, nginx or chromium is not there, the tests of it say that they were skipped."""
import html
import http.server
import os
import pathlib
import re
import subprocess
import sys
import tempfile
import threading
import time
import urllib.parse

from tests import snippets
from tests.ports import free_port
from tests.program import DATA, MOMENT, NAMES, PROGRAM, Lines, Serving, put_of
from tests.snippets import snippet
from tests.test_questions import parts_of
from tests.test_using_proxy import KEYRING, Site
from tests.test_web_pages import Page, constant
from tests.wants import main, needs, needs_file
from uploads import uploads


class Case(Lines):
    def reached(self, serving):
        """The paths to which links lead from the first page on, each of which is there."""
        known, left = set(), ["/"]
        while left:
            path = left.pop()
            known.add(path)
            reply = serving.answer(f"GET {path} HTTP/1.1\r\n\r\n".encode())
            self.assertEqual(parts_of(reply)[0], 200, path)
            if b"\r\nContent-Type: text/html" in reply:
                links = re.findall(r'href="([^"]*)"', parts_of(reply)[1].decode())
                found = {urllib.parse.urlsplit(urllib.parse.urljoin(path, html.unescape(it))) for it in links if not it.startswith("data:")}
                left += sorted({it.path for it in found if not it.netloc} - known - set(left))
        return known


class Served(Case):
    """The pages of a served archive in which an upload is accepted, another is refused, and a third waits."""

    def served(self):
        db = self.accepted()
        folder = os.path.dirname(db)
        text = pathlib.Path(DATA, NAMES[0]).read_text(encoding="utf-8")
        for name, changes in (("lab", {"Distribution: box": "Distribution: lab"}), ("moon", {NAMES[1]: "moon_1.0-1_amd64.deb"})):
            pathlib.Path(folder, f"{name}.changes").write_text(snippets.changed(text, changes), encoding="utf-8")
            self.line(0, "put", db, "--at", "0", f"{folder}/{name}.changes")
        self.line(0, "run", db, "--at", "0")
        return db

    def page(self, serving, path):
        """The page at a path, whose head is that of a page."""
        head, _, body = serving.answer(f"GET {path} HTTP/1.1\r\n\r\n".encode()).partition(b"\r\n\r\n")
        first, *fields = head.decode().split("\r\n")
        policy = f"Content-Security-Policy: {constant('POLICY')}; frame-ancestors 'none'"
        wanted = ["Content-Type: text/html; charset=utf-8", f"Content-Length: {len(body)}", policy, "Connection: close"]
        self.assertEqual((first, sorted(fields)), ("HTTP/1.1 200 OK", sorted(wanted)), path)
        return body.decode()

    def test_the_pages(self):
        db = self.served()
        with Serving(db, 100) as serving:
            index = self.page(serving, "/")
            self.assertEqual(self.page(serving, "/index.html"), index)
            suite, uploaded = self.page(serving, "/suites/box/index.html"), self.page(serving, "/uploads.html")
            self.assertEqual(self.page(serving, "/suites/b%6Fx/index.html"), suite)
        self.assertIn('href="suites/box/index.html"', index)
        for name in (NAMES[0], "lab.changes", "moon.changes"):
            self.assertIn(f'href="why/{name}"', uploaded)
        with tempfile.TemporaryDirectory() as tree:
            self.line(0, "export", db, tree)
            self.assertEqual(pathlib.Path(tree, "dists/box/index.html").read_text(encoding="utf-8"), suite)

    def test_the_key(self):
        db = self.served()
        for words, key in ((["--signed"], "box.gpg"), (["--signed", "--key", "archive-2026.asc"], "archive-2026.asc"), ([], None)):
            with self.subTest(words), Serving(db, 100, *words) as serving:
                index = self.page(serving, "/")
                self.assertEqual(set(re.findall("/usr/share/keyrings/([^ \\n<\\]]+)", index)), {key} if key else set())
                self.assertEqual("trusted=yes" in index, key is None)

    def test_each_link_leads_somewhere(self):
        with Serving(self.served(), 1000) as serving:
            self.assertLessEqual({"/suites/box/index.html", "/uploads.html", f"/why/{NAMES[0]}"}, self.reached(serving))


# ---- what a reader copies

# Two suites. The second keeps sources, and has another name and two components.
TWO = "Codename: box\nArchitectures: amd64\nComponents: main\n\n"
TWO += "Codename: lab\nSuite: trial\nArchitectures: amd64 source\nComponents: main contrib\n"

# What is uploaded for the second suite: each package with its section.
FOR_LAB = [(uploads.Package("hello", source=True), "utils"), (uploads.Package("extra"), "contrib/utils")]


def upload_for_lab(package, section):
    """The files of the upload of a package for the second suite, each a body by its name."""
    files = uploads.upload_of(package)
    name = f"{package.name}_{package.version}_amd64.changes"
    text = snippets.changed(files[name].decode(), {"Distribution: box": "Distribution: lab", " utils optional ": f" {section} optional "})
    return {**files, name: text.encode()}


def filled(page, address):
    """A page as its script leaves it, if it was asked for at an address: each place of the URL has that of the page's folder."""
    folder = html.escape(urllib.parse.urljoin(address, "."))
    return re.sub(r'(<span class="url">)[^<]*', lambda it: it[1] + folder, page)


def boxes(page):
    """The texts in the boxes of a page, as a reader copies them: two of each suite."""
    return [html.unescape(re.sub("<[^>]*>", "", it)) for it in re.findall("<pre>(.*?)</pre>", page, re.S)]


class Pasting(snippets.Case):
    """Two texts that a reader copies from the page of the suites, each as all that apt has in its folder of sources."""

    def bring(self, room):
        """Gives the archive of a room both suites, and two uploads for the second one."""
        room.write("work/two.conf", TWO)
        self.run_in(room, "archive configure --db box.db --at $(date +%s) two.conf")
        for package, section in FOR_LAB:
            paths = uploads.write(f"{room.folder}/{package.name}", upload_for_lab(package, section))
            self.run_in(room, f"archive put --db box.db --at $(date +%s) {' '.join(paths)}")
        judged = self.run_in(room, "archive run --db box.db --at $(date +%s)")
        self.assertEqual(judged, "".join(f"accepted {it.name}_{it.version}_amd64.changes\n" for it, _ in FOR_LAB[::-1]))

    def run_in(self, room, text):
        """Runs a text in a room that ends well and says nothing on standard error. Answers what it prints."""
        status, printed, told = room.run(text)
        self.assertEqual((status, told), (0, ""), printed)
        return printed

    def copied(self, room, address):
        """The two texts of the second suite, from the page at an address."""
        page = self.run_in(room, f"curl -sS --fail {address}")
        lines, paragraph = boxes(filled(page, address))[2:]
        self.assertTrue(lines.startswith("deb ["), lines)
        self.assertTrue(paragraph.startswith("Types: deb deb-src\n"), paragraph)
        return lines, paragraph

    def check(self, room, text):
        """With this text alone apt finds nothing wrong, and downloads what the suite shows of both components and of the source."""
        room.apt(text)
        self.run_in(room, "rm -rf got; mkdir got; cd got; apt-get -o APT::Update::Error-Mode=any update; apt-get download hello extra; apt-get source --download-only hello")
        files = {name: body for it in FOR_LAB for name, body in upload_for_lab(*it).items() if not name.endswith((".changes", ".control"))}
        got = {path.name: path.read_bytes() for path in pathlib.Path(room.work, "got").iterdir()}
        self.assertEqual(got, files)


@needs_file(PROGRAM)
@needs("apt-get", "curl")
class Pasted(Pasting):
    def setUp(self):
        super().setUp()
        self.room.write("work/box.conf", snippet("configuration"))
        self.shell("archive init --db box.db --at 0 box.conf")
        self.bring(self.room)

    def serve(self, *words):
        """Serves the archive. Answers its address."""
        port = free_port()
        words = ["archive", "serve", "--db", "box.db", "--at", str(int(time.time())), *words, f"127.0.0.1:{port}", "1000"]
        self.serving = self.room.start(words, port=port)
        return f"http://127.0.0.1:{port}/"

    def test_without_signatures(self):
        lines, paragraph = self.copied(self.room, self.serve())
        self.assertIn("[trusted=yes]", lines)
        self.assertIn("\nTrusted: yes\n", paragraph)
        for text in (lines, paragraph):
            with self.subTest(text):
                self.check(self.room, text)

    @needs("gpg")
    def test_a_tree_that_is_signed_while_it_is_served(self):
        """The lines are those of the first page of the tree, and the key is the one to which that page has a link."""
        self.addCleanup(subprocess.run, ["gpgconf", "--kill", "all"], env=self.room.variables, check=False)
        self.assertEqual(self.room.run(snippet("key"))[0], 0)
        url = self.serve("--export", "www", "--signed")
        self.room.write("work/sign-tree", snippet("sign-tree", {"http://127.0.0.1:8080": url.rstrip("/")}), 0o755)
        self.shell(f"curl -sS --fail -X POST {url}queue/run")
        self.assertEqual(self.room.run("gpg --export archive@example.org > www/box.gpg && ./sign-tree")[0], 0)
        port = free_port()
        self.room.start([sys.executable, "-m", "http.server", "-d", f"{self.room.work}/www", "-b", "127.0.0.1", str(port)], port=port)
        tree = f"http://127.0.0.1:{port}/"
        self.shell(f"curl -sS --fail -o key.gpg {tree}box.gpg")
        key = {KEYRING: f"{self.room.work}/key.gpg"}
        for text, served in zip(self.copied(self.room, tree), self.copied(self.room, url)):
            with self.subTest(text):
                self.assertEqual(text, served.replace(url, tree))
                self.check(self.room, snippets.changed(text, key))
                # The address of the server itself has no signatures.
                self.room.apt(snippets.changed(served, key))
                status, _, told = self.room.run("apt-get update")
                self.assertEqual((status, "is not signed" in told), (100, True), told)

    @needs("chromium")
    def test_a_browser_fills_the_address_in(self):
        for words in ((), ("--signed",)):
            url = self.serve(*words)
            page = self.shell(f"curl -sS --fail {url}")
            for path in ("", "index.html"):
                wanted = boxes(filled(page, f"{url}{path}"))
                self.assertEqual((len(wanted), boxes(self.room.browsed(f"{url}{path}"))), (4, wanted))
            self.room.end(self.serving)


class SignedSite(Site):
    """A served archive with a proxy in front. Its pages say that its Releases are signed, as gpg does beside it."""

    def serve(self):
        words = ["archive", "serve", "--db", "box.db", "--at", str(int(time.time())), "--refuse-origin", "--signed", f"127.0.0.1:{self.behind}", "100000"]
        self.serving = self.start(words, port=self.behind)


@needs_file(PROGRAM)
@needs("apt-get", "curl", "gpg", "nginx", "openssl")
class PastedBehindAProxy(Pasting):
    def test_signed_without_a_tree(self):
        site = SignedSite()
        self.addCleanup(site.close)
        site.end(site.serving)
        self.bring(site)
        site.serve()
        site.sign()
        site.sure("mkdir signed/dists/lab")
        site.sign()
        for text in self.copied(site, f"{site.url}/"):
            with self.subTest(text):
                self.check(site, snippets.changed(text, {KEYRING: site.keyring}))


# ---- hostile texts and names

# A text that would be markup of many kinds, if it were not escaped. Each kind asks for a path of its own.
ASKS = ["/ran/error", "/ran/frame", "/ran/image", "/ran/link", "/ran/script", "/ran/style"]
MARKUP = "\"'><script src=/ran/script></script><img src=/ran/image onerror=fetch('/ran/error')><style>@import '/ran/style';</style>"
MARKUP += "<link rel=stylesheet href=/ran/link><iframe src=/ran/frame></iframe></b></p></div></td></table></title></style></script><!--"

# What is no name, of a file or of a suite.
NO_NAMES = ["<b>", "a<b", "a>b", "a'b", 'a"b', "a&lt;b", "a b", "a%3Cb", "a?b", "a#b", "a:b", "a/b", "a\\b", "a\u202eb", "é", ".a", "-a", "~a", "_a", "+a"]

# The worst names of uploads, of files that they lack and of suites: all characters that there may be, as many as there may be, and words that
# mean something in a path or an address.
NAMES_OF_UPLOADS = [f"{it}.changes" for it in ("0" + "-.+~_" * 38 + "z", "0..", "index.html", "javascript.alert-1", "2b.lt-b.gt")]
LACKED = ["9" + "_~+.-" * 39 + ".deb", "0..deb", "script.html"]
CODENAMES = ["0" + "._-" * 19 + "zz", "index.html", "javascript.alert-1", "0.."]

SUITE = """Codename: {code}
Suite: {other}
Origin: {text}
Label: {text}
Description: {text}
Architectures: amd64 source
Components: main {code}
"""
CONTROL = "Package: {name}\nVersion: {version}\nArchitecture: amd64\nMaintainer: {text}\nDescription: {text}\n more\n"
ODD = uploads.Package("0+-.+-.", version="0~.+~+.-~+.", source=True)


def odd_upload(code):
    """An upload of a package with odd names for a suite, in the component that is called as the suite is: its files, each a body by its name."""
    control = CONTROL.format(name=ODD.name, version=ODD.version, text=MARKUP)
    files = uploads.upload_with(ODD.name, ODD.version, f"for {code}".encode(), control.encode(), uploads.source_of(ODD))
    *_, name = files
    text = files[name].decode().replace("Distribution: box", f"Distribution: {code}").replace(" utils optional ", f" {code}/utils optional ")
    return {**files, name: text.encode()}


class Between(http.server.BaseHTTPRequestHandler):
    """A proxy for a browser, which keeps what it is asked for. It answers as a served archive does, with its pages changed, and has nothing of other
    addresses."""

    def do_GET(self):
        self.server.asked.append(self.path)
        serving, path = self.server.serving, self.path.removeprefix(address_of(self.server.serving))
        head, _, body = serving.answer(f"GET {path} HTTP/1.1\r\n\r\n".encode()).partition(b"\r\n\r\n")
        fields = dict(it.split(": ", 1) for it in head.decode().split("\r\n")[1:])
        policy, text = self.server.change(fields.get("Content-Security-Policy"), body.decode())
        self.send_response(int(head.split()[1]))
        self.send_header("Content-Type", fields["Content-Type"])
        if policy:
            self.send_header("Content-Security-Policy", policy)
        self.end_headers()
        self.wfile.write(text.encode())

    def log_message(self, *_):
        """Says nothing."""


def address_of(serving):
    return "http://%s:%d" % serving.address


def as_it_is(policy, page):
    return policy, page


def without_policy(_, page):
    """A page in which a browser runs whatever is there."""
    return None, re.sub('<meta http-equiv="Content-Security-Policy"[^>]*>', "", page)


def without_escapes(policy, page):
    """A page whose texts are markup, in which a browser runs whatever is there."""
    return without_policy(policy, html.unescape(page))


class Hostile(Case):
    """An archive in which all that its pages show is as hostile as it may be."""

    def setUp(self):
        self.room = snippets.Room()
        self.addCleanup(self.room.close)
        self.db = f"{self.room.work}/box.db"

    def put(self, files):
        for name, body in files.items():
            path = pathlib.Path(self.room.work, name)
            path.write_bytes(body)
            self.line(0, "put", self.db, "--at", MOMENT, str(path))

    def served(self):
        """Serves the archive. Each suite shows a package and a source, and under each name of an upload one was refused and another waits."""
        suites = [SUITE.format(code=code, other=f"z{code[:59]}", text=MARKUP) for code in CODENAMES]
        self.line(0, "init", self.db, "--at", "0", self.room.write("work/it.conf", "\n".join(suites)))
        for code in CODENAMES:
            self.put(odd_upload(code))
            self.assertRegex(self.line(0, "run", self.db, "--at", MOMENT), r"\Aaccepted \S+\n\Z")
        for name in NAMES_OF_UPLOADS:
            self.put({name: uploads.changes_of("odd", "0", {"odd.control": b"odd"})})
        self.put({"odd.control": b"odd"})
        refused = "".join(f"refused 1 {it}\n" for it in sorted(NAMES_OF_UPLOADS))
        self.assertEqual(self.line(0, "run", self.db, "--at", MOMENT), refused)
        for name in NAMES_OF_UPLOADS:
            self.put({name: uploads.changes_of("odd", "0", {it: b"" for it in LACKED})})
        serving = Serving(self.db, 1_000_000, at=MOMENT)
        self.addCleanup(serving.__exit__)
        return serving

    def test_what_is_no_name(self):
        """No file and no suite is called so."""
        with Serving(self.made(), len(NO_NAMES)) as serving:
            for name in NO_NAMES:
                status, said = parts_of(serving.answer(put_of(urllib.parse.quote(f"{name}.changes", safe=""), b"text")))
                self.assertEqual((status, said), (422, b"Q1\n"), name)
        for name in (*NO_NAMES, "a+b", "a~b", "a" * 61):
            text = f"Codename: {name}\nArchitectures: amd64\nComponents: main\n"
            self.assertIn("archive: F3", self.line(1, "init", self.db, "--at", "0", self.room.write("work/it.conf", text)), name)

    def test_each_link_leads_somewhere(self):
        known = self.reached(self.served())
        for path in (*(f"/suites/{it}/index.html" for it in CODENAMES), *(f"/why/{it}" for it in NAMES_OF_UPLOADS)):
            self.assertIn(urllib.parse.quote(path), known)

    def browsed(self, server, url):
        """What a browser makes of a page, and what it asks for of the archive's address, or because of a text."""
        server.asked = []
        words = [*self.room.browser(), "--proxy-server=%s:%d" % server.server_address, "--proxy-bypass-list=<-loopback>"]
        words += ["--timeout=100000", "--virtual-time-budget=3000", "--dump-dom", url]
        ran = subprocess.run(words, capture_output=True, text=True, check=True, timeout=300)
        place = address_of(server.serving)
        return Page(ran.stdout.strip()), [it.removeprefix(place) for it in server.asked if it.startswith(f"{place}/") or "/ran/" in it]

    @needs("chromium")
    def test_a_browser_runs_nothing_but_the_scripts(self):
        """And asks for nothing, with the policy and without it. It runs all of the texts if they are not escaped: so that would be seen here."""
        server = http.server.ThreadingHTTPServer(("127.0.0.1", 0), Between)
        self.addCleanup(server.server_close)
        self.addCleanup(server.shutdown)
        threading.Thread(target=server.serve_forever, daemon=True).start()
        server.serving = self.served()
        for path in ("/", "/uploads.html", *(f"/suites/{it}/index.html" for it in CODENAMES[:2])):
            url = f"{address_of(server.serving)}{path}"
            for server.change in (as_it_is, without_policy):
                with self.subTest(path, change=server.change.__name__):
                    page, asked = self.browsed(server, url)
                    self.assertEqual((page.faults, asked), ([], [path]))
                    self.assertEqual(page.of("style"), [constant("STYLE")])
                    self.assertLessEqual(set(page.of("script")), {constant("SCRIPT"), constant("FILTER")})
                    self.assertEqual(page.of("b")[0], MARKUP)
            server.change = without_escapes
            self.assertEqual(sorted(set(self.browsed(server, url)[1]) - {path}), ASKS, path)


if __name__ == "__main__":
    main()
