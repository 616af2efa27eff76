"""What is set in on docs/USING.md and docs/OPERATING.md, and rooms in which tests run it.

Each text has a name here, by a piece that no other has. Tests ask for it by that name, and may put their own addresses and folders
in place of those of the pages. test_using.py looks whether each text has a name that some test asks for."""
import contextlib
import os
import pathlib
import pty
import re
import select
import shlex
import shutil
import signal
import socket
import subprocess
import tempfile
import termios
import textwrap
import time
import unittest

from tests.program import PROGRAM
from uploads import uploads

ROOT = pathlib.Path(__file__).resolve().parent.parent

PIECES = {
    "configuration": "Codename: box\n",
    "session": "$ with_sidecars ../hello",
    "commands": "archive try PATH..",
    "way of an upload": "the last listed file comes",
    "upload": "amd64.changes --run\n",
    "what lacks": "has no verdict yet, and lacks",
    "upload with a login": "upload https:",
    "package file alone": "vendor-latest.deb",
    "curl": "for file in $(cat files)",
    "dput.cf": "[box]\n",
    "dput": "dput box ready/",
    "lists": "/queue http:",
    "why by HTTP": "curl -sS http://archive.example.org:8080/why/",
    "questions": "curl -sS http://127.0.0.1:8080/why/",
    "where it is": "archive list --db box.db | grep",
    "what differs": "comm -3",
    "check": "passed over Uploader in box",
    "json": '{"missing":1,',
    "waits": "waits hello_1.0-1_amd64.changes ",
    "waits as JSON": '"lacks":[',
    "signed tree": "archive export --db box.db --signed www |",
    "tree of another user": "chown -R archive: box.db* www",
    "export.conf": "--export www --signed",
    "sign-tree": "for state in www/dists/",
    "signed tree as a service": "enable --now boqitsel-sign.path",
    "sign.service": "Description=Signs what waits in the tree of box\n",
    "sign.path": "Description=Has the tree of box signed when a state is made\n",
    "sign.timer": "Description=Has the tree of box signed each minute\n",
    "key of a suite": "<stable@example.org>",
    "signing by a key of a suite": "suite=${state#",
    "key that ends": "--quick-set-expire",
    "next key": "Archive box <next@example.org>",
    "sign anew": "state=$(readlink",
    "units of another archive": "/etc/systemd/system/tools${name#boqitsel}",
    "tree by nginx": "root /srv/box/www;",
    "tree by rsync": "rsync -a",
    "tree by rclone": "rclone sync",
    "trusted": "deb [trusted=yes]",
    "sources": "Types: deb deb-src\n",
    "promote": '--at "$(date +%s)" box lab',
    "promote by HTTP": "/promote/box/lab",
    "three suites": "Codename: testing\n",
    "promote to stable": '--at "$(date +%s)" testing stable',
    "go back": '--at "$(date +%s)" previous stable hello',
    "promote to stable by HTTP": "/promote/testing/stable",
    "go back by HTTP": "/copy/previous/stable/hello",
    "remove": '--at "$(date +%s)" box hello',
    "again": "again.changes",
    "remove by HTTP": "/remove/box/hello",
    "serve": "--refuse-origin 127.0.0.1:8080 1000\n",
    "first steps": "useradd --system",
    "box.service": "Description=The package archive box\n",
    "log": "1467436850 PUT ",
    "queue.service": "Description=One run of the queue of box\n",
    "queue.timer": "Description=Runs the queue of box each minute\n",
    "batch": "echo run; echo waiting;",
    "stop": "runuser -u archive -- sh\n",
    "another configuration": "/^Architectures: amd64/& arm64/'",
    "one uploader more": "copy=$(runuser",
    "one uploader of a suite": "at == \"testing\"",
    "another name": "> rest.conf",
    "another name on machines": "sed -i 's/ box main/",
    "the old name goes": '"& box") {',
    "what a promotion would change": "diff stable.list",
    "promote what may go back": "sed 's/^/remove previous /'",
    "go back by a whole state": "sed 's/^/remove stable /'",
    "empty": "sed 's/^/remove lab /'",
    "who shows it": "grep -F leaky_1.0-1_amd64.deb",
    "for good": "box leaky\n",
    "is it there": "SELECT count(*) FROM bodies",
    "tree anew": "mv www.new www",
    "clean": 'archive clean --db box.db --at "$(date +%s)"\n',
    "clean.service": "Description=One cleaning of box\n",
    "clean.timer": "Description=Cleans box each day\n",
    "prometheus.yml": "scrape_configs:\n",
    "alerts": "alert: BoqitselDown\n",
    "moment": "last=$(cat moment",
    "nginx": "proxy_cache_path",
    "login": "htpasswd -c",
    "key": "'Archive box <archive@example.org>' default sign",
    "signed folder": "mkdir -p signed/dists/box\n",
    "sign": "cd signed/dists\n",
    "sign.conf": "ExecStart=/srv/box/sign\n",
    "signed": "https://archive.example.org/ box main",
    "cache": "Remap-box:",
    "cached": "cache.example.org:3142",
    "mirror": "debmirror --method",
    "backup": "mkdir -p copies\n",
    "backup.service": "Description=One backup of box\n",
    "backup.timer": "Description=Backs box up each day\n",
    "copy": "copy=copies/",
    "reserve": "fallocate -l",
    "adopt": "adopt conf old",
    "old key": "--export-secret-keys KEY",
    "password of a key": "--change-passphrase KEY",
    "adopt anew": "rm -rf box.db* ready www",
    "anew": "> accepted",
    "look": 'archive verdicts --db "$copy"',
    "pack": "sqlite3 box.db VACUUM\n",
    "notes": "CREATE TABLE notes",
    "upgrade": "apt install ./boqitsel_VERSION",
    "migrate": "archive migrate --from old.db",
    "bring over": "sqlite3 old.db .dump",
    "indexes": "arrivals_by_body ON arrivals (body)",
}


def pages():
    """The texts of both pages."""
    return "".join((ROOT / f"docs/{name}.md").read_text(encoding="utf-8") for name in ("USING", "OPERATING"))


def all_snippets():
    """The texts of the pages that are set in by four blanks or more, each without them."""
    found = re.findall(r"(?:^ {4,}\S.*\n(?:\n(?= {4}))*)+", pages(), re.M)
    return [textwrap.dedent(text) for text in found]


def changed(text, changes):
    """A text with other words in place of some, each of which it has."""
    for there, here in changes.items():
        if there not in text:
            raise ValueError(f"there is no {there} in: {text}")
        text = text.replace(there, here)
    return text


def snippet(name, changes=()):
    """The text of this name, with other words in place of some of the pages'."""
    [text] = [it for it in all_snippets() if PIECES[name] in it]
    return changed(text, dict(changes))


def commands_of(unit):
    """The command lines of a unit's text, as systemd reads them."""
    return [shlex.split(line.replace("%%", "%")) for line in re.findall(r"^ExecStart=(.*)$", unit, re.M)]


def built(folder, package, more=()):
    """Writes what dpkg-buildpackage would of a package, which lists no sidecar: its files to a folder. Its source may list more files, each a
    body by its name. Answers the path of the .changes."""
    files = {f"{package.name}_{package.version}_amd64.deb": uploads.deb_of(package)}
    if package.source:
        *source, (dsc, text) = uploads.source_of(package).items()
        text = text.partition(b"Checksums-Sha1:")[0] + uploads.lists_of({**dict(source), **dict(more)}).encode()
        files.update([*source, *dict(more).items(), (dsc, text)])
    files[f"{package.name}_{package.version}_amd64.changes"] = uploads.changes_of(package.name, package.version, files)
    for name, body in files.items():
        pathlib.Path(folder, name).write_bytes(body)
    return f"{folder}/{package.name}_{package.version}_amd64.changes"


# Files that a browser would run, if it took them for pages: each asks for an address that has its name.
SCRIPT = "<script>fetch('/ran/{}')</script>"
EVIL = {
    "evil.html": f"<!doctype html><title>evil</title><p>evil</p>{SCRIPT}",
    "evil.svg": f'<svg xmlns="http://www.w3.org/2000/svg"><text>evil</text>{SCRIPT}</svg>',
    "evil.xhtml": f'<html xmlns="http://www.w3.org/1999/xhtml"><head><title>evil</title></head><body>{SCRIPT}</body></html>',
}
EVIL = {name: text.format(name).encode() for name, text in EVIL.items()}

APT = """Dir "{base}";
Dir::State::status "{base}/status";
APT::Architecture "amd64";
APT::Architectures {{ "amd64"; }};
APT::Sandbox::User "root";
Acquire::Retries "1";
Acquire::https::CAInfo "{certificate}";
"""

NGINX = """{user}daemon off; pid {folder}/pid; error_log {folder}/errors; events {{}}
http {{
include /etc/nginx/mime.types; default_type application/octet-stream; sendfile on; tcp_nopush on;
access_log off; client_body_temp_path {folder}/body; proxy_temp_path {folder}/proxy; fastcgi_temp_path {folder}/fastcgi;
uwsgi_temp_path {folder}/uwsgi; scgi_temp_path {folder}/scgi;
{text}
}}
"""


class Room:
    """A folder with a home, programs of its own on the path, and what was started in it, which `close` ends."""

    def __init__(self):
        self.ending = contextlib.ExitStack()
        self.folder = self.ending.enter_context(tempfile.TemporaryDirectory())
        for name in ("home", "bin", "work"):
            os.mkdir(f"{self.folder}/{name}")
        self.home, self.work = f"{self.folder}/home", f"{self.folder}/work"
        os.symlink(os.path.abspath(PROGRAM), f"{self.folder}/bin/archive")
        for name in ("with_sidecars", "upload", "adopt", "backup"):
            os.symlink(ROOT / "bin" / name, f"{self.folder}/bin/{name}")
        self.variables = {
            "PATH": f"{self.folder}/bin:{os.environ['PATH']}:/usr/sbin:/sbin",
            "HOME": self.home,
            "USER": "ann",
            "LC_ALL": "C.UTF-8",
        }

    def close(self):
        self.ending.close()

    def write(self, name, text, mode=0o644):
        """Writes a text to a file, which has a path from the folder, and answers the path."""
        path = pathlib.Path(self.folder, name)
        path.parent.mkdir(parents=True, exist_ok=True)
        path.write_text(text, encoding="utf-8")
        path.chmod(mode)
        return str(path)

    def run(self, text, cwd=None, within=600):
        """Runs a text by a shell that ends at the first failure, within so many seconds. Answers the status, and what was printed on both outputs."""
        words = {"cwd": cwd or self.work, "env": self.variables, "stdin": subprocess.DEVNULL, "timeout": within}
        ran = subprocess.run(["sh", "-ec", text], capture_output=True, text=True, errors="backslashreplace", check=False, **words)
        return ran.returncode, ran.stdout, ran.stderr

    def read(self, name):
        """The text of a file, which has a path from the folder."""
        return pathlib.Path(self.folder, name).read_text(encoding="utf-8", errors="backslashreplace")

    def start(self, words, port=None):
        """Starts a program, which is ended with the room, and waits until it listens at a port. Its output goes to the file `told`."""
        words = [shutil.which(words[0], path=self.variables["PATH"]), *words[1:]]
        with open(f"{self.folder}/told", "ab") as out:
            streams = {"stdin": subprocess.DEVNULL, "stdout": out, "stderr": subprocess.STDOUT}
            process = subprocess.Popen(words, cwd=self.work, env=self.variables, start_new_session=True, **streams)
        self.ending.callback(self.end, process)
        end = time.monotonic() + 120
        while port and not is_open(port):
            if process.poll() is not None or time.monotonic() > end:
                raise RuntimeError(f"nothing listens at {port}: {words}: {self.read('told')}")
            time.sleep(0.01)
        return process

    def typed(self, text, *passwords):
        """Runs a text by a shell at a terminal, at which these passwords are typed in turn wherever one is asked for, and the last one from then
        on. Answers the status, and all that was printed."""
        number, terminal = pty.fork()
        if not number:
            os.chdir(self.work)
            os.execvpe("sh", ["sh", "-ec", text], self.variables)
        printed, asked = b"", 0
        with contextlib.suppress(OSError):  # which is how a terminal ends
            while select.select([terminal], [], [], 300)[0] and (part := os.read(terminal, 1 << 16)):
                printed += part
                if len(re.findall(rb"(?i)pass(?:word|phrase)[^:\n]*: ?", printed)) > asked:
                    wait_for_no_echo(terminal)
                    os.write(terminal, f"{passwords[min(asked, len(passwords) - 1)]}\n".encode())
                    asked += 1
        os.close(terminal)
        return os.waitstatus_to_exitcode(os.waitpid(number, 0)[1]), printed.decode(errors="backslashreplace")

    def end(self, process):
        """Ends a program and all that it started."""
        process.terminate()
        with contextlib.suppress(subprocess.TimeoutExpired):
            process.wait(timeout=5)
        with contextlib.suppress(ProcessLookupError):
            os.killpg(process.pid, signal.SIGKILL)
        process.wait()

    def certificate(self):
        """Makes a certificate for localhost, if there is none, and answers its path and that of its key."""
        paths = f"{self.folder}/certificate.pem", f"{self.folder}/key.pem"
        if not os.path.exists(paths[0]):
            words = ["openssl", "req", "-x509", "-newkey", "rsa:2048", "-nodes", "-days", "2", "-out", paths[0], "-keyout", paths[1]]
            words += ["-subj", "/CN=localhost", "-addext", "subjectAltName=DNS:localhost"]
            subprocess.run(words, check=True, capture_output=True, timeout=300)
        return paths

    def nginx(self, text, port, changes):
        """Writes a text of the page for nginx as a whole configuration, which listens at a port, with these words in place of the page's, and
        with all its files in the room. Answers its path."""
        certificate, key = self.certificate()
        folder = tempfile.mkdtemp(dir=self.folder)
        text = changed(text, {
            "/etc/nginx/archive.pem": certificate,
            "/etc/nginx/archive.key": key,
            "/etc/nginx/uploaders": f"{self.folder}/uploaders",
            "listen 443 ssl": f"listen 127.0.0.1:{port} ssl",
            "archive.example.org": "localhost",
            **changes,
        })
        user = "user root; " if os.geteuid() == 0 else ""
        return self.write(f"{folder}/nginx.conf", NGINX.format(user=user, folder=folder, text=text))

    def proxy(self, text, port, behind):
        """Writes the page's text for nginx in front of an archive, which listens at a port and has the archive at another. Answers its path."""
        return self.nginx(text, port, {
            "/var/cache/nginx/box": f"{tempfile.mkdtemp(dir=self.folder)}/cache",
            "/srv/box/signed": f"{self.work}/signed",
            "http://127.0.0.1:8080": f"http://127.0.0.1:{behind}",
        })

    def browser(self):
        """The words that start chromium, with a folder of its own."""
        folder = tempfile.mkdtemp(dir=self.folder)
        return ["chromium", "--headless", "--no-sandbox", "--disable-gpu", "--ignore-certificate-errors", f"--user-data-dir={folder}"]

    def browsed(self, url):
        """What chromium makes of a page."""
        words = [*self.browser(), "--timeout=100000", "--virtual-time-budget=3000", "--dump-dom", url]
        return subprocess.run(words, capture_output=True, text=True, check=True, timeout=300).stdout

    def framed(self, url, paths, log):
        """Has chromium look at each of these paths of a server, in a frame of a page of another's. Answers what the server writes to its log
        meanwhile. Seconds after all frames have got what they get the page asks for `done`."""
        frames = "".join(f'<iframe src="{url}/{it}"></iframe>' for it in paths)
        script = f"<script>onload = () => setTimeout(() => fetch('{url}/done', {{mode: 'no-cors'}}), 3000)</script>"
        page = self.write("frames.html", f"<!doctype html><title>Frames</title>{script}{frames}")
        with open(log, encoding="utf-8") as it:
            it.seek(0, os.SEEK_END)
            process, written = self.start([*self.browser(), "--remote-debugging-port=0", f"file://{page}"]), ""
            end = time.monotonic() + 300
            while '"GET /done ' not in written and time.monotonic() < end:
                time.sleep(0.1)
                written += it.read()
        self.end(process)
        return written

    def apt(self, sources):
        """Makes an apt of its own, with a list or a .sources file of this text, which apt-get uses from then on."""
        base = tempfile.mkdtemp(dir=self.folder)
        for name in ("apt.conf.d", "preferences.d", "trusted.gpg.d", "sources.list.d"):
            os.makedirs(f"{base}/etc/apt/{name}")
        for name in ("lib/apt/lists/partial", "cache/apt/archives/partial", "log/apt"):
            os.makedirs(f"{base}/var/{name}")
        pathlib.Path(base, "status").touch()
        name = "box.sources" if sources.startswith("Types:") else "box.list"
        pathlib.Path(base, "etc/apt/sources.list.d", name).write_text(sources, encoding="utf-8")
        text = APT.format(base=base, certificate=f"{self.folder}/certificate.pem")
        pathlib.Path(base, "apt.conf").write_text(text, encoding="utf-8")
        self.variables["APT_CONFIG"] = f"{base}/apt.conf"


def wait_for_no_echo(terminal):
    """Waits until what is typed at a terminal is not shown, but not for long: some programs throw away what was typed before that."""
    end = time.monotonic() + 60
    while termios.tcgetattr(terminal)[3] & termios.ECHO and time.monotonic() < end:
        time.sleep(0.01)


def is_open(port):
    """Whether something listens at a port."""
    with contextlib.suppress(OSError), socket.create_connection(("127.0.0.1", port), timeout=5) as it:
        return it.getsockname() != it.getpeername()
    return False


class Case(unittest.TestCase):
    """A test with a room of its own."""

    def setUp(self):
        self.room = Room()
        self.addCleanup(self.room.close)

    def shell(self, text, cwd=None):
        """Runs a text that ends well and says nothing on standard error. Answers what it prints."""
        status, printed, told = self.room.run(text, cwd)
        self.assertEqual((status, told), (0, ""), printed)
        return printed
