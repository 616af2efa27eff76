"""Tests of the pages for people: their constants as the sources of the crate `pages` have them, the pages that `archive export` writes, with
texts that look like markup, and those pages in a browser. If the program, its `export` or the browser is not there the tests of it say that
they were skipped."""
import base64
import hashlib
import html
import html.parser
import os
import pathlib
import re
import subprocess
import tempfile
import unittest
import urllib.parse

from tests import web_pages
from tests.program import DATA, MOMENT, NAMES, ROOT, Lines
from tests.snippets import changed
from tests.wants import main, needs_that, path_of
from uploads import uploads

SOURCES = pathlib.Path(ROOT, "crates/pages/src")
BROWSER = path_of("chromium") or path_of("chromium-browser") or path_of("google-chrome")

# What a page may have: its elements with their attributes. `meta`, `link` and `input` have no end.
ELEMENTS = {
    "html": {"lang"}, "head": set(), "meta": {"charset", "http-equiv", "name", "content"}, "title": set(), "link": {"rel", "href"}, "style": set(),
    "body": set(), "header": set(), "nav": set(), "main": set(), "section": {"class"}, "footer": set(), "h1": set(), "h2": set(), "p": {"class"},
    "a": {"href", "aria-current"}, "b": set(), "code": set(), "pre": set(), "span": {"class"}, "div": {"class"}, "dl": set(), "dt": set(), "dd": set(),
    "input": {"type", "placeholder", "aria-label", "hidden"}, "table": set(), "thead": set(), "tbody": set(), "tr": {"class"}, "th": set(),
    "td": {"class"}, "script": set(),
}
WITHOUT_END = {"meta", "link", "input"}

# A description that would be markup, a script and the end of an attribute, if it were not escaped.
HOSTILE = "\"' onclick=alert(1)><script>document.title='broken'</script><b>&lt;&amp; é </p></table></style><!--"


def source(name):
    return (SOURCES / name).read_text(encoding="utf-8")


constant = web_pages.constant


def digest(text):
    """The word by which a policy allows a text."""
    return f"'sha256-{base64.b64encode(hashlib.sha256(text.encode()).digest()).decode()}'"


class Page(html.parser.HTMLParser):
    """A page, as a parser reads it: its elements, each in those around it, and its texts. What is out of place is a fault."""

    def __init__(self, text):
        super().__init__(convert_charrefs=True)
        self.open, self.elements, self.texts, self.faults = [], [], [], []
        self.feed(text)
        self.close()
        self.faults += [f"{it} has no end" for it in self.open]

    def handle_starttag(self, tag, attrs):
        names = [name for name, _ in attrs]
        if tag not in ELEMENTS or not ELEMENTS[tag].issuperset(names) or len(set(names)) < len(names):
            self.faults.append(f"{tag} with {names}")
        self.elements.append((tag, dict(attrs)))
        if tag not in WITHOUT_END:
            self.open.append(tag)

    def handle_endtag(self, tag):
        if not self.open or self.open.pop() != tag:
            self.faults.append(f"an end of {tag}")

    def handle_data(self, data):
        self.texts.append((self.open[-1] if self.open else "", data))

    def handle_comment(self, data):
        self.faults.append(f"a comment {data}")

    def of(self, tag):
        """The texts of the elements of a name."""
        return [text for it, text in self.texts if it == tag]

    def links(self):
        return [attrs["href"] for tag, attrs in self.elements if tag == "a"]


class Sources(unittest.TestCase):
    def test_the_policy_allows_the_style_and_the_two_scripts_alone(self):
        rules = dict(it.strip().split(" ", 1) for it in constant("POLICY").split(";"))
        wanted = {"default-src": "'none'", "style-src": digest(constant("STYLE")), "img-src": "data:"}
        wanted["script-src"] = f"{digest(constant('SCRIPT'))} {digest(constant('FILTER'))}"
        self.assertEqual(rules, {**wanted, "base-uri": "'none'", "form-action": "'none'"})

    def test_the_scripts_are_short_and_the_style_has_dark_mode(self):
        self.assertLessEqual(len(constant("SCRIPT")), 85)
        self.assertLessEqual(len(constant("FILTER")), 200)
        self.assertIn("color-scheme:light dark", constant("STYLE"))
        for text in (constant("STYLE"), constant("SCRIPT"), constant("FILTER")):
            self.assertNotIn("</", text)

    def test_the_sentences_are_those_of_the_page_on_faults(self):
        rows = re.findall(r"^\| `(accepted|refused \d+)` \| (.*?) \| ", pathlib.Path(ROOT, "docs/FAULTS.md").read_text(encoding="utf-8"), re.M)
        marked = [(word, re.sub(r"`([^`]*)`", r"<code>\1</code>", html.escape(text, quote=False))) for word, text in rows]
        words = re.findall(r'Verdict::(\w+) => "(accepted|refused \d+)"', source("verdict.rt"))
        means = dict(re.findall(r'Verdict::(\w+) => \{\s*"([^"]*)"', source("verdict.rt")))
        self.assertEqual([(word, means[name]) for name, word in words], marked)

    def test_a_page_has_two_doors(self):
        """Only `push_markup`, which takes constants, and `push_text` append to a page. The lists of grouped.rt are of items, and it has no text."""
        self.assertIn("pub fn push_markup(markup: &'static str, ", source("escape.rt"))
        for path in sorted(SOURCES.glob("*.rt")):
            if path.name not in ("escape.rt", "grouped.rt"):
                code = re.sub(r"^ *//.*$", "", path.read_text(encoding="utf-8"), flags=re.M)
                self.assertNotRegex(code, r"\.(?:push|push_str|extend|extend_from_slice|insert|insert_str)\(|write!", path.name)
        self.assertNotIn("String", source("grouped.rt"))
        self.assertEqual(source("link.rt").count("append_to(&mut text)"), source("link.rt").count("append_to"))


class Tree(Lines):
    """An archive of a configuration, and the tree that it is exported to."""

    CONF = ""

    def setUp(self):
        room = tempfile.TemporaryDirectory()
        self.addCleanup(room.cleanup)
        self.room, self.tree, self.db = room.name, f"{room.name}/www", f"{room.name}/it.db"
        self.line(0, "init", self.db, "--at", "0", self.file("it.conf", self.CONF))

    def file(self, name, text):
        path = f"{self.room}/{name}"
        with open(path, "w", encoding="utf-8") as it:
            it.write(text)
        return path

    def put(self, name, text, at=MOMENT):
        self.line(0, "put", self.db, "--at", str(at), self.file(name, text))

    def export(self, *words):
        return self.line(0, "export", self.db, *words, self.tree)

    def page(self, path):
        it = Page(pathlib.Path(self.tree, path).read_text(encoding="utf-8"))
        self.assertEqual(it.faults, [], path)
        self.assertEqual(it.of("style"), [constant("STYLE")])
        self.assertIn(constant("POLICY"), [attrs.get("content") for tag, attrs in it.elements if tag == "meta"])
        self.assertLessEqual(set(it.of("script")), {constant("SCRIPT"), constant("FILTER")})
        return it

    def assert_is(self, path, wanted):
        """The page at a path has these bytes."""
        self.assertEqual(pathlib.Path(self.tree, path).read_text(encoding="utf-8").split("\n"), wanted.split("\n"))


class Exported(Tree):
    """The pages of an archive of two suites, one with a hostile description, an accepted upload, one that waits and one that is refused."""

    CONF = (
        f"Codename: box\nArchitectures: amd64 source\nComponents: main contrib\nDescription: {HOSTILE}\n\n"
        "Codename: lab\nArchitectures: amd64\nComponents: main\n"
    )

    def setUp(self):
        super().setUp()
        self.line(0, "put", self.db, "--at", MOMENT, *(f"{DATA}/{name}" for name in NAMES))
        self.line(0, "run", self.db, "--at", MOMENT)
        changes = pathlib.Path(DATA, NAMES[0]).read_text(encoding="utf-8")
        self.put("other_1.0-1_amd64.changes", changes.replace("Distribution: box", "Distribution: nowhere"))
        self.line(0, "run", self.db, "--at", MOMENT)
        self.put("waits_1.0-1_amd64.changes", changes.replace("hello_1.0-1_amd64.deb", "hello_1.0-2_amd64.deb"))

    def assert_leads(self, path, link):
        """A relative link of the page at a path leads to a file of the tree."""
        self.assertNotIn(":", link)
        self.assertTrue(os.path.isfile(os.path.join(self.tree, os.path.dirname(path), urllib.parse.unquote(link))), link)

    def suites(self):
        """What the first page says of the two suites."""
        box = {
            "codename": "box", "architectures": ["amd64", "source"], "components": ["main", "contrib"], "packages": 1, "sources": 0,
            "date": "Sat, 02 Jul 2016 05:20:50 UTC", "description": HOSTILE,
        }
        lab = {"codename": "lab", "architectures": ["amd64"], "components": ["main"], "packages": 0, "sources": 0, "date": "Thu, 01 Jan 1970 00:00:00 UTC"}
        return [box, lab]

    def test_each_page_has_the_bytes_that_it_should(self):
        self.export()
        self.assert_is("index.html", web_pages.index_page("Archive", self.suites()))
        item = {
            "kind": "package", "package": "hello", "synopsis": "greets", "version": "1.0-1", "architecture": "amd64", "component": "main", "source": "hello",
            "files": [("pool/main/h/hello/hello_1.0-1_amd64.deb", os.path.getsize(f"{DATA}/{NAMES[1]}"))],
        }
        self.assert_is("dists/box/index.html", web_pages.suite_page("Archive", self.suites()[0], [item]))
        self.assert_is("dists/lab/index.html", web_pages.suite_page("Archive", self.suites()[1], []))
        waiting = [("waits_1.0-1_amd64.changes", ["hello_1.0-2_amd64.deb"])]
        judged = [("accepted", NAMES[0]), ("refused 1", "other_1.0-1_amd64.changes")]
        self.assert_is("uploads.html", web_pages.uploads_page("Archive", waiting, judged, web_pages.meanings()))

    def test_there_is_no_stray_markup_and_each_link_leads_somewhere(self):
        self.export()
        first = self.page("index.html")
        self.assertIn(HOSTILE, first.of("p"))
        self.assertEqual(first.of("title"), ["Suites"])
        for path in ("index.html", "uploads.html", "dists/box/index.html", "dists/lab/index.html"):
            for link in self.page(path).links():
                self.assert_leads(path, link)

    def test_a_signed_tree_names_the_one_key(self):
        self.export("--signed")
        self.assert_is("index.html", web_pages.index_page("Archive", self.suites(), key="box.gpg"))
        self.assertNotIn("trusted", pathlib.Path(self.tree, "index.html").read_text(encoding="utf-8"))

    def test_the_key_is_a_link_if_it_is_in_the_tree(self):
        self.export("--signed")
        pathlib.Path(self.tree, "box.gpg").write_bytes(b"key")
        self.export("--signed")
        self.assert_is("index.html", web_pages.index_page("Archive", self.suites(), key="box.gpg", is_here=True))

    def test_a_key_of_another_name(self):
        for name in ("archive-2026.asc", "a.pgp", f"{96 * 'k'}.gpg"):
            self.export("--signed", "--key", name)
            self.assert_is("index.html", web_pages.index_page("Archive", self.suites(), key=name))
            self.assertNotIn("box.gpg", pathlib.Path(self.tree, "index.html").read_text(encoding="utf-8"))
        pathlib.Path(self.tree, "a.pgp").write_bytes(b"key")
        for name, is_here in (("a.pgp", True), ("box.gpg", False)):
            self.export("--signed", "--key", name)
            self.assert_is("index.html", web_pages.index_page("Archive", self.suites(), key=name, is_here=is_here))

    def test_a_refused_name_of_a_key_makes_nothing(self):
        for words in (["--signed", "--key", "../box.gpg"], ["--signed", "--key", "box"], ["--key", "a.gpg"]):
            self.line(2, "export", self.db, *words, self.tree)
            self.assertFalse(os.path.exists(self.tree), words)

    @needs_that(BROWSER, "chromium")
    def test_a_browser_runs_the_script_and_nothing_else(self):
        self.export()
        words = ["--headless", "--no-sandbox", "--disable-gpu", f"--user-data-dir={self.room}/browser", "--dump-dom"]
        ran = subprocess.run([BROWSER, *words, f"file://{self.tree}/index.html"], capture_output=True, text=True, check=True, timeout=300)
        page = Page(ran.stdout.strip())
        self.assertEqual(page.of("title"), ["Suites"])
        self.assertIn(HOSTILE, page.of("p"))
        self.assertEqual(page.of("span"), [f"file://{self.tree}/"] * 5)

    @needs_that(BROWSER, "chromium")
    def test_a_browser_shows_the_filter(self):
        self.export()
        words = ["--headless", "--no-sandbox", "--disable-gpu", f"--user-data-dir={self.room}/browser", "--dump-dom"]
        ran = subprocess.run([BROWSER, *words, f"file://{self.tree}/dists/box/index.html"], capture_output=True, text=True, check=True, timeout=300)
        fields = [attrs for tag, attrs in Page(ran.stdout.strip()).elements if tag == "input"]
        self.assertEqual(fields, [{"type": "search", "placeholder": "Filter", "aria-label": "Filter"}])


class Named(Tree):
    """What the header calls the archive."""

    def test_the_name_is_the_origin_of_the_first_suite_else_its_label(self):
        suite = "Codename: {}\nArchitectures: amd64\nComponents: main\n{}"
        for fields, name in (("Origin: Acme & Sons\nLabel: Packages\n", "Acme & Sons"), ("Label: Packages\n", "Packages"), ("", "Archive")):
            with self.subTest(fields), tempfile.TemporaryDirectory() as room:
                text = suite.format("box", fields) + "\n" + suite.format("lab", "Origin: Another\n")
                self.line(0, "init", f"{room}/named.db", "--at", "0", self.file("named.conf", text))
                self.line(0, "export", f"{room}/named.db", f"{room}/www")
                for path in ("index.html", "uploads.html", "dists/lab/index.html"):
                    page = Page(pathlib.Path(room, "www", path).read_text(encoding="utf-8"))
                    self.assertEqual((page.faults, page.of("b")), ([], [name]), path)

    CONF = "Codename: box\nArchitectures: amd64\nComponents: main\n"


class Described(Tree):
    """A package that says of itself what would be markup."""

    CONF = "Origin: Acme\nCodename: box\nArchitectures: amd64\nComponents: main\n"

    def test_a_description_is_a_text(self):
        control = f"Package: sly\nVersion: 1.0-1\nArchitecture: amd64\nMaintainer: {HOSTILE}\nDescription: {HOSTILE}\n more of it\n"
        for name, body in uploads.upload_with("sly", "1.0-1", b"deb of sly", control.encode()).items():
            self.put(name, body.decode())
        self.assertEqual(self.line(0, "run", self.db, "--at", MOMENT), "accepted sly_1.0-1_amd64.changes\n")
        self.export()
        item = {
            "kind": "package", "package": "sly", "synopsis": HOSTILE, "version": "1.0-1", "architecture": "amd64", "component": "main", "source": "sly",
            "files": [("pool/main/s/sly/sly_1.0-1_amd64.deb", len(b"deb of sly"))],
        }
        self.assert_is("dists/box/index.html", web_pages.suite_page("Acme", {"codename": "box", "packages": 1, "sources": 0}, [item]))
        self.assertIn(HOSTILE, self.page("dists/box/index.html").of("div"))


class Grouped(Tree):
    """The page of a suite that shows several packages of a source."""

    CONF = "Codename: box\nArchitectures: amd64 source\nComponents: main\n"

    def accept(self, source, packages, with_source):
        """Has an upload of packages of a source accepted, with the source or without."""
        files = uploads.source_of(uploads.Package(source, source=True)) if with_source else {}
        for package in packages:
            control = f"Package: {package}\nSource: {source}\nVersion: 1.0-1\nArchitecture: amd64\nMaintainer: Ann <ann@example.org>\nDescription: greets\n"
            files |= {f"{package}_1.0-1_amd64.deb": f"deb of {package}".encode(), f"{package}_1.0-1_amd64.control": control.encode()}
        record = uploads.changes_of(source, "1.0-1", files).decode().replace(f"Binary: {source}", f"Binary: {' '.join(packages)}")
        folder = f"{self.room}/{source}"
        paths = uploads.write(folder, {**files, f"{source}_1.0-1_amd64.changes": record.encode()})
        self.line(0, "put", self.db, "--at", MOMENT, *paths)
        self.assertEqual(self.line(0, "run", self.db, "--at", MOMENT), f"accepted {source}_1.0-1_amd64.changes\n")

    def test_rows_of_one_source_stand_together(self):
        self.accept("pear", ["zebra", "apple", "pear"], True)
        self.accept("fig", ["fig", "quince"], True)
        self.accept("lime", ["banana"], False)
        self.accept("fi+", ["nut"], True)
        self.export()
        page = self.page("dists/box/index.html")
        kinds = [attrs["class"] for tag, attrs in page.elements if tag == "tr" and attrs]
        groups = (("fi+", True, ["nut"]), ("fig", True, ["fig", "quince"]), ("lime", False, ["banana"]), ("pear", True, ["apple", "pear", "zebra"]))
        rows = [row for source, is_here, packages in groups for row in [("source", source)] * is_here + [("package", it) for it in packages]]
        self.assertEqual(list(zip(kinds, page.of("b")[1:])), rows)


class Waits(Tree):
    """The page of uploads when several wait, in the order of judging: for each what it lacks, by name."""

    CONF = "Codename: box\nArchitectures: amd64 source\nComponents: main\nKeepDays: 2\n"

    def wait(self, name, at, changes=()):
        """Puts the .changes of a package file and its sidecar. Answers its name, and those of the two."""
        stem = f"{name}_1.0-1_amd64"
        listed = {f"{stem}.deb": f"deb of {name}".encode(), f"{stem}.control": f"control of {name}".encode()}
        text = uploads.changes_of(name, "1.0-1", listed).decode()
        self.put(f"{stem}.changes", changed(text, dict(changes)), at)
        return f"{stem}.changes", *listed

    def lacking(self, at):
        """What waits at a moment and what it lacks, as the page has it."""
        self.export("--at", str(at))
        self.page("uploads.html")
        page = pathlib.Path(self.tree, "uploads.html").read_text(encoding="utf-8")
        [text] = re.findall('<h2>Waiting <span class="dim">[0-9]+</span></h2>(.*)<h2>Judged', page, re.S)
        rows = re.findall('<tr><td>(.*)</td><td class="name">(.*)</td><td>(.*)</td></tr>', text)
        found = [(name, " ".join(re.findall("<code>(.*?)</code>", lacks))) for _, name, lacks in rows]
        tags = [re.sub("<[^>]*>", "", tag) for tag, _, _ in rows]
        self.assertEqual(tags, [f"{len(lacks.split())} missing" if lacks else "whole" for _, lacks in found])
        self.assertEqual("Nothing waits." in text, not rows)
        return found

    def test_what_lacks_of_each_that_waits(self):
        day = 86_400
        # The .changes of a name is judged, and another one of that name comes later.
        _, deb, control = self.wait("zoo", 0, {"Distribution: box": "Distribution: nowhere"})
        self.put(deb, "deb of zoo", 0)
        self.put(control, "control of zoo", 0)
        self.assertEqual(self.line(0, "run", self.db, "--at", "0"), "refused 1 zoo_1.0-1_amd64.changes\n")
        # What came for one of them ends a day before the others.
        self.put("mid_1.0-1_amd64.deb", "deb of mid", 0)
        zoo = self.wait("zoo", day, {"zoo_1.0-1_amd64.": "new_1.0-1_amd64."})
        ant = self.wait("ant", day)
        mid = self.wait("mid", day)
        lacks = [(ant[0], f"{ant[2]} {ant[1]}"), (mid[0], mid[2]), (zoo[0], "new_1.0-1_amd64.control new_1.0-1_amd64.deb")]
        self.assertEqual(self.lacking(day), lacks)
        # Other contents are not what is listed, and stand beside it.
        for body in ("other", "deb of mid", "deb of zoo"):
            self.put(ant[1], body, day)
        self.put(ant[2], "control of ant", day)
        for body in ("other", "control of mid", "another"):
            self.put(mid[2], body, day)
        self.assertEqual(self.lacking(2 * day - 1), [(ant[0], ant[1]), (mid[0], ""), lacks[2]])
        self.assertEqual(self.lacking(2 * day), [(ant[0], ant[1]), (mid[0], mid[1]), lacks[2]])
        self.put(ant[1], "deb of ant", 2 * day)
        self.assertEqual(self.lacking(2 * day), [(ant[0], ""), (mid[0], mid[1]), lacks[2]])
        self.assertEqual(self.lacking(3 * day - 1)[:2], [(ant[0], ""), (mid[0], mid[1])])
        self.assertEqual(self.lacking(3 * day), [])


if __name__ == "__main__":
    main()
