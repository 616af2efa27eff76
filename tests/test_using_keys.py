"""Tests of docs/OPERATING.md, of its keys, that need no built program: its script signs a tree that is made by hand, and apt takes the tree or refuses
it, as the page says. If gpg, curl or apt is not there, the test says that it was skipped."""
import email.utils
import hashlib
import http.server
import os
import pathlib
import re
import subprocess
import threading
import time

from tests import snippets
from tests.snippets import snippet
from tests.wants import main, needs

KEYRING = "/usr/share/keyrings/box.gpg"
EMPTY = hashlib.sha256(b"").hexdigest()
RELEASE = "Codename: {}\nArchitectures: amd64\nComponents: main\nDate: {}\nSHA256:\n {} 0 main/binary-amd64/Packages\n"
FIRST, NEXT, STABLE = "archive@example.org", "next@example.org", "stable@example.org"


class Site(http.server.SimpleHTTPRequestHandler):
    """Hands out a folder, and answers what the script asks of the archive. A run shows each state that is signed."""

    def do_GET(self):
        if self.path == "/queue":
            self.answer()
        else:
            super().do_GET()

    def do_POST(self):
        for state in pathlib.Path(self.directory, "dists").glob(".*.*"):
            link = state.parent / state.name[1:].rpartition(".")[0]
            if (state / "InRelease").exists() and not link.exists():
                link.symlink_to(state.name)
        self.answer()

    def answer(self):
        self.send_response(200)
        self.send_header("Content-Length", "0")
        self.end_headers()

    def log_message(self, *_):
        pass


@needs("gpg", "curl", "apt-get")
class Keys(snippets.Case):
    def setUp(self):
        super().setUp()
        self.tree = f"{self.room.work}/www"
        for suite in ("box", "stable"):
            state = f"work/www/dists/.{suite}.0123456789abcdef"
            self.room.write(f"{state}/Release", RELEASE.format(suite, email.utils.formatdate(time.time() - 60, usegmt=True).replace("GMT", "UTC"), EMPTY))
            self.room.write(f"{state}/main/binary-amd64/Packages", "")
        server = http.server.ThreadingHTTPServer(("127.0.0.1", 0), lambda *words: Site(*words, directory=self.tree))
        self.addCleanup(server.server_close)
        self.addCleanup(server.shutdown)
        threading.Thread(target=server.serve_forever, daemon=True).start()
        self.address = f"127.0.0.1:{server.server_port}"
        self.addCleanup(subprocess.run, ["gpgconf", "--kill", "all"], env=self.room.variables, check=False)
        os.makedirs(f"{self.room.home}/.gnupg", mode=0o700)

    def gpg(self, text):
        """Does lines of the page that make keys, which gpg tells."""
        status, printed, told = self.room.run(text)
        self.assertEqual((status, printed), (0, ""), told)

    def sign(self, changes=()):
        """Signs what waits, by the page's script with other words in it. A second call finds nothing more."""
        script = snippet("sign-tree", {"127.0.0.1:8080": self.address, **dict(changes)})
        self.room.write("work/sign-tree", script, 0o755)
        status, printed, told = self.room.run("./sign-tree")
        self.assertEqual((status, printed), (0, ""), told)
        self.assertEqual(self.room.run("./sign-tree"), (0, "", ""))

    def unsign(self):
        """Takes the signatures away, so that each state waits again."""
        for path in pathlib.Path(self.tree, "dists").glob(".*/*Release*"):
            if path.name != "Release":
                path.unlink()

    def apt_says(self, key, suite="box"):
        """What an apt says of a suite whose list names a file of keys: nothing, or why it refuses it."""
        text = snippet("signed", {KEYRING: f"{self.room.work}/{key}", "https://archive.example.org": f"http://{self.address}", "box main": f"{suite} main"})
        self.room.apt(text)
        status, printed, told = self.room.run("apt-get update")
        self.assertEqual(bool(status), "is not signed" in told, told)
        return (re.search(r"NO_PUBKEY|EXPKEYSIG", printed + told) or [""])[0]

    def test_one_key_does_for_all_suites(self):
        self.gpg(snippet("key") + f"gpg --export {FIRST} > box.gpg")
        self.sign()
        self.assertEqual((self.apt_says("box.gpg"), self.apt_says("box.gpg", "stable")), ("", ""))

    def test_a_key_for_each_suite(self):
        self.gpg(snippet("key") + snippet("key of a suite") + f"gpg --export {FIRST} > www/box.gpg")
        line = f"key={FIRST}\n"
        self.sign({line: snippet("signing by a key of a suite")})
        for key, suite, wanted in (("box", "box", ""), ("stable", "stable", ""), ("box", "stable", "NO_PUBKEY"), ("stable", "box", "NO_PUBKEY")):
            self.assertEqual(self.apt_says(f"www/{key}.gpg", suite), wanted, (key, suite))

    def test_a_key_that_ends(self):
        # For gpg it is two days ago while the key is made, which ends after a day, and while the tree is signed.
        conf = pathlib.Path(self.room.write("home/.gnupg/gpg.conf", f"faked-system-time {int(time.time()) - 2 * 86_400}\n"))
        self.gpg(snippet("key", {"sign never": "sign 1d"}) + f"gpg --export {FIRST} > old.gpg")
        self.sign()
        conf.unlink()
        self.assertEqual(self.apt_says("old.gpg"), "EXPKEYSIG")
        status, _, told = self.room.run(f"gpg --batch --yes --local-user {FIRST} --clear-sign --output no www/dists/box/Release")
        self.assertEqual((bool(status), os.path.exists(f"{self.room.work}/no")), (True, False), told)
        self.gpg(snippet("key that ends"))
        self.assertEqual((self.apt_says("www/box.gpg"), self.apt_says("old.gpg")), ("", "EXPKEYSIG"))

    def test_the_key_of_another_archive(self):
        """The lines of adopting give a key with a password to whoever signs here, and take the password off."""
        other = f"{self.room.folder}/other"
        os.mkdir(other, 0o700)
        self.gpg(f"gpg --homedir {other} --batch --pinentry-mode loopback --passphrase secret --quick-generate-key {FIRST} default sign never")
        there = {"runuser -u archive -- ": "", "KEY": FIRST}
        taken = snippet("old key", {**there, "runuser -u repo -- gpg": f"gpg --homedir {other}"})
        for text, answers in ((taken, ["secret"]), (snippet("password of a key", there), ["secret", ""])):
            self.room.run(f"gpgconf --kill all; gpgconf --homedir {other} --kill all")
            status, printed = self.room.typed(text, *answers)
            self.assertEqual((status, printed.count("Enter passphrase: ")), (0, len(answers)), printed)
        self.gpg(f"gpg --export {FIRST} > box.gpg")
        self.sign()
        self.assertEqual(self.apt_says("box.gpg"), "")

    def test_another_key(self):
        self.gpg(snippet("key") + f"gpg --export {FIRST} > old.gpg")
        self.sign()
        self.gpg(snippet("next key") + f"gpg --export {NEXT} > new.gpg")
        self.unsign()
        line = f"key={FIRST}\n"
        [both, alone] = re.findall(r"`(key=[^`]*next@example\.org'?)`", snippets.pages())
        self.sign({line: f"{both}\n"})
        self.assertEqual([self.apt_says(it) for it in ("old.gpg", "new.gpg", "www/box.gpg")], ["", "", ""])
        self.sign({line: f"{alone}\n"})
        self.assertEqual(self.apt_says("old.gpg"), "")
        self.gpg(snippet("sign anew"))
        self.assertEqual([self.apt_says(it) for it in ("old.gpg", "new.gpg", "www/box.gpg")], ["NO_PUBKEY", "", ""])


if __name__ == "__main__":
    main()
