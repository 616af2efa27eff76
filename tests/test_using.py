"""Tests of docs/USING.md and docs/OPERATING.md that need no built program: each text that is set in there is one that a test asks for, and is
there once in both, the units of systemd and the texts for nginx are right as they are there. If systemd-analyze, nginx or openssl is not there,
the test says that it was skipped. What they show is run by test_using_program.py, test_using_proxy.py, test_using_tree.py and
test_using_words.py."""
import os
import pathlib
import re
import subprocess
import textwrap

from tests import snippets
from tests.ports import free_port
from tests.snippets import snippet
from tests.wants import main, needs

HERE = pathlib.Path(__file__).resolve().parent


class Using(snippets.Case):
    def passes(self, *words):
        ran = subprocess.run(words, capture_output=True, text=True, check=False, timeout=300, env={**os.environ, **self.room.variables})
        self.assertEqual((ran.returncode, ran.stdout), (0, ""), ran.stderr)
        return ran.stderr

    def test_each_text_that_is_set_in_has_one_name(self):
        self.assertNotIn("```", snippets.pages())
        for text in snippets.all_snippets():
            with self.subTest(text):
                self.assertEqual(len([name for name, piece in snippets.PIECES.items() if piece in text]), 1)
        for name in snippets.PIECES:
            with self.subTest(name):
                self.assertTrue(snippet(name))

    def test_each_name_is_one_that_a_test_asks_for(self):
        tests = "".join(it.read_text(encoding="utf-8") for it in HERE.glob("test_*.py"))
        self.assertEqual(set(snippets.PIECES) - set(re.findall(r'snippet\("([^"]+)"', tests)), set())

    def test_the_policy_of_the_text_for_nginx_is_that_of_the_pages(self):
        source = (snippets.ROOT / "crates/pages/src/frame.rt").read_text(encoding="utf-8")
        policy = re.search(r'const POLICY: &str =\s*"([^"\\]*)";', source)[1]
        self.assertIn(f'\n    add_header Content-Security-Policy "{policy}" always;\n', snippet("tree by nginx"))

    def test_the_way_of_signing_without_a_mismatch_comes_first(self):
        text = snippets.pages()
        names = "key", "signed tree", "sign-tree", "tree by nginx", "signed folder", "sign"
        places = [text.index(textwrap.indent(snippet(it), "    ")) for it in names]
        self.assertEqual(places, sorted(places))

    def test_the_way_of_an_upload_goes_by_commands_and_requests(self):
        text, commands = snippet("way of an upload"), snippet("commands")
        source = (snippets.ROOT / "crates/desk/src/routes.rt").read_text(encoding="utf-8")
        named = set(re.findall(r"archive ([a-z]+)", text))
        self.assertEqual(named, {"put", "waiting", "why", "run", "verdicts", "list", "show", "remove"})
        self.assertEqual(named - set(re.findall(r"^archive ([a-z]+)", commands, re.M)), set())
        for method, path in re.findall(r"(GET|PUT|POST) /([a-z]+(?:/[a-z]+)?)", text):
            with self.subTest(path):
                self.assertIn(f'"/{path}', source, method)

    @needs("systemd-analyze")
    def test_the_units_are_right(self):
        # The programs need not be installed here.
        self.room.write("units/boqitsel.service", snippet("box.service", {"/usr/local/bin/archive": "/bin/true"}))
        self.room.write("units/boqitsel.service.d/export.conf", snippet("export.conf", {"/usr/local/bin/archive": "/bin/true"}))
        self.room.write("units/boqitsel-queue.service", snippet("queue.service"))
        self.room.write("units/boqitsel-queue.service.d/sign.conf", snippet("sign.conf", {"/srv/box/sign": "/bin/true"}))
        self.room.write("units/boqitsel-queue.timer", snippet("queue.timer"))
        self.room.write("units/boqitsel-sign.service", snippet("sign.service", {"/srv/box/sign-tree": "/bin/true"}))
        self.room.write("units/boqitsel-sign.path", snippet("sign.path"))
        self.room.write("units/boqitsel-sign.timer", snippet("sign.timer"))
        self.room.write("units/boqitsel-clean.service", snippet("clean.service"))
        self.room.write("units/boqitsel-clean.timer", snippet("clean.timer"))
        self.room.write("units/boqitsel-backup.service", snippet("backup.service", {"/usr/local/bin/backup": "/bin/true"}))
        self.room.write("units/boqitsel-backup.timer", snippet("backup.timer"))
        self.room.variables["SYSTEMD_UNIT_PATH"] = f"{self.room.folder}/units:"
        units = f"{self.room.folder}/units"
        self.shell(snippet("units of another archive", {"/usr/lib/systemd/system": units, "/etc/systemd/system": units}))
        self.assertIn("\nWorkingDirectory=/srv/tools\n", self.room.read("units/tools.service"))
        self.assertIn("http://127.0.0.1:8081/queue/run", self.room.read("units/tools-queue.service"))
        self.assertIn("\nSyslogIdentifier=tools-queue\n", self.room.read("units/tools-queue.service"))
        self.assertIn("\nPathChanged=/srv/tools/www/dists\n", self.room.read("units/tools-sign.path"))
        self.assertEqual(len(list(pathlib.Path(units).glob("tools*"))), len([it for it in pathlib.Path(units).glob("boqitsel*") if it.is_file()]))
        for path in sorted(pathlib.Path(units).glob("*.*")):
            if path.is_file():
                self.assertEqual(self.passes("systemd-analyze", "verify", path), "")

    @needs("nginx", "openssl")
    def test_the_texts_for_nginx_are_right(self):
        """They are taken with other paths for the certificate, the cache and the logins, and with a port that needs no right."""
        tree = {"/srv/box/www": f"{self.room.work}/www"}
        for path in (
            self.room.proxy(snippet("nginx"), free_port(), 8080),
            self.room.nginx(snippet("tree by nginx"), free_port(), tree),
        ):
            self.assertIn("test is successful", self.passes("nginx", "-t", "-c", path))


if __name__ == "__main__":
    main()
