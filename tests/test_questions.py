"""Rows on what a served archive tells: why uploads wait or were judged, what suites show, the configuration, what waits and was judged as JSON, and figures.
Each file of rows in tests/questions is a test. Its rows are asked in their order, of an archive in a database file that is served on loopback,
each connection at the moment of its row. They are rows of `test_archives`:

    archive CONF                     `made`: from here on another archive is asked, which was made at 0
    deliver NAME MOMENT BODY WORD..  `new`, `again` or the fault. Of two words more the second stands in place of the first in the body
    run MOMENT                       the lines of a run
    request SIZE MOMENT BYTES        the reply, byte for byte, whatever the size is
    archive-status MOMENT            the lines of `archive status`

What the commands print of the archive is what it answers over HTTP. A field Origin changes no reply but with `--refuse-origin`, of which origin.rows
has the rows; and that option changes no reply to a request without the field. The program is that of program.py."""
import os
import pathlib
import re
import subprocess
import tempfile

from tests import rows
from tests.program import LONG, PROGRAM, ROOT, Lines, Serving, put_of
from tests.test_lines import difference
from tests.wants import main, needs

FOLDER = pathlib.Path(ROOT, "tests/questions")
TEXTS = [pathlib.Path(ROOT, f"crates/test_archives/data/{name}.texts") for name in ("replies", "samples", "shared")]
FILES = sorted(FOLDER.glob("*.rows"))

# The file of rows that are asked of an archive that refuses Origin.
ORIGIN = "origin"
REFUSES = ["--refuse-origin"]

# What is asked of each archive once its rows are done, and the words of the command that prints the same. MOMENT is that of the last row.
SAME = {
    "/why": "why --at MOMENT",
    "/json/why": "why --json --at MOMENT",
    "/list": "list",
    "/json/list": "list --json",
    "/list/box": "list box",
    "/json/list/box": "list --json box",
    "/queue": "waiting --at MOMENT",
    "/json/queue": "waiting --json --at MOMENT",
    "/verdicts": "verdicts",
    "/json/verdicts": "verdicts --json",
    "/configuration": "configuration",
}


def texts():
    """The texts that rows of `test_archives` name."""
    named = {}
    for path in TEXTS:
        if rows.read_file(path, named):
            raise rows.Unread(f"{path.name}: a file of texts asks something")
    return named


def questions_of(path):
    """The questions of a file of rows, in their order."""
    try:
        return list(rows.read_rows(path.read_bytes(), texts()))
    except rows.Unread as fault:
        raise rows.Unread(f"{path.name}:{fault}") from None


def changed(body, words):
    """A body in which of each two words the second stands in place of the first."""
    if len(words) % 2:
        raise rows.Unread("a word has no other in its place")
    for there, here in zip(words[::2], words[1::2]):
        if there not in body:
            raise rows.Unread("a word is not in the body")
        body = body.replace(there, here)
    return body


def parts_of(reply):
    """The status and the body of a reply."""
    head, _, body = reply.partition(b"\r\n\r\n")
    return int(head.split()[1]) if head else None, body


def as_it_is(request):
    return request


def with_origin(request):
    """A request with a field Origin more, if its first line ends."""
    return request.replace(b"\r\n", b"\r\nOrigin: http://evil.example\r\n", 1)


class Asked:
    """The archive that is asked in a new folder, by `serve` with these words. Each request is changed before it is sent."""

    def __init__(self, folder, words=(), sent=as_it_is):
        self.folder, self.words, self.sent = folder, words, sent
        self.db, self.now = f"{folder}/box.db", f"{folder}/now"
        self.serving, self.moment = None, 0

    def ran(self, word, *words):
        """What a command prints, which finds the archive alone."""
        self.close()
        ran = subprocess.run([PROGRAM, word, "--db", self.db, *words], capture_output=True, check=False, timeout=LONG)
        return ran.stdout if ran.returncode == 0 else b"status %d\n" % ran.returncode + ran.stderr

    def close(self):
        """Ends the server, if there is one."""
        if self.serving:
            self.serving.__exit__()
        self.serving = None

    def answer(self, moment, request):
        """The reply to a request at a moment. The archive is served from the first one on."""
        self.serving = self.serving or Serving(self.db, 1_000_000, "--moments", self.now, *self.words)
        self.moment = max(self.moment, int(moment))
        pathlib.Path(self.now).write_text(f"{int(moment)}\n", encoding="ascii")
        return self.serving.answer(request)

    def archive(self, conf):
        self.close()
        for name in os.listdir(self.folder):
            os.unlink(f"{self.folder}/{name}")
        path = pathlib.Path(self.folder, "box.conf")
        path.write_bytes(conf)
        self.moment = 0
        printed = self.ran("init", "--at", "0", str(path))
        return printed or b"made"

    def deliver(self, name, moment, body, *words):
        return parts_of(self.answer(moment, put_of(name.decode(), changed(body, words))))[1].strip()

    def run(self, moment):
        return parts_of(self.answer(moment, b"POST /queue/run HTTP/1.1\r\n\r\n"))[1]

    def request(self, _, moment, request):
        return self.answer(moment, self.sent(request))

    def status(self, moment):
        return self.ran("status", "--at", moment.decode())

    def asked(self, row):
        """The answer to a row."""
        words = {"archive": self.archive, "deliver": self.deliver, "run": self.run, "request": self.request, "archive-status": self.status}
        word = row.words[0].decode()
        if word not in words:
            raise rows.Unread(f"{row.number}: no row begins with {word}")
        return words[word](*row.words[1:])


class Questions(Lines):
    def ask(self, path, words=(), sent=as_it_is):
        """Asks the rows of a file, and looks at each archive once its rows are done. Tells each row that is answered otherwise."""
        found = []
        with tempfile.TemporaryDirectory() as folder:
            archive = Asked(folder, words, sent)
            self.addCleanup(archive.close)
            for row in questions_of(path):
                if row.words[0] == b"archive" and archive.serving:
                    found += self.differences(archive)
                answer = archive.asked(row)
                if answer != row.wanted:
                    found.append(f"{path.name}:{row.number}: {difference(answer, row.wanted)}")
            found += self.differences(archive)
            archive.close()
        if found:
            self.fail("\n".join(found))

    def differences(self, archive):
        """What an archive tells otherwise over HTTP than by its commands."""

        def told(path):
            return parts_of(archive.answer(archive.moment, f"GET {path} HTTP/1.1\r\n\r\n".encode()))

        lines = (told("/queue")[1] + told("/verdicts")[1]).decode()
        same = dict(SAME)
        for name in sorted(set(re.findall(r"(?m)^(?:\d+|accepted|refused \d+) (\S+)$", lines))):
            same |= {f"/why/{name}": f"why --at MOMENT {name}", f"/json/why/{name}": f"why --json --at MOMENT {name}"}
        replies = {path: told(path) for path in same}
        for path, line in same.items():
            printed = archive.ran(*line.replace("MOMENT", str(archive.moment)).split())
            if replies[path] != (200, printed) and not (replies[path][0] in (404, 422) and printed.startswith(b"status 1\n")):
                yield f"{path} told {replies[path]}, and {line} prints {printed}"

    def test_there_are_files(self):
        self.assertTrue(FILES)

    @needs("promtool")
    def test_prometheus_takes_the_figures(self):
        """Those that the rows want, and those of an archive that has just been made."""
        wanted = [parts_of(row.wanted)[1] for row in questions_of(FOLDER / "figures.rows") if b"# TYPE " in row.wanted]
        with tempfile.TemporaryDirectory() as folder:
            archive = Asked(folder)
            self.addCleanup(archive.close)
            archive.archive(texts()[b"pair"])
            found = parts_of(archive.answer(1, b"GET /metrics HTTP/1.1\r\n\r\n"))[1]
            archive.close()
        self.assertGreater(len(wanted), 5)
        for text in (*wanted, found):
            ran = subprocess.run(["promtool", "check", "metrics"], input=text, capture_output=True, check=False, timeout=LONG)
            self.assertEqual((ran.returncode, ran.stdout, ran.stderr, text.count(b"# TYPE ")), (0, b"", b"", 10))


def add_test(path):
    """Adds a test of a file of rows: as its rows are, and with the option; and each of them with a field Origin, without the option."""

    def test(self):
        ways = [(REFUSES, as_it_is)] if path.stem == ORIGIN else [([], as_it_is), (REFUSES, as_it_is), ([], with_origin)]
        for words, sent in ways:
            with self.subTest(sent.__name__, words=words):
                self.ask(path, words, sent)

    setattr(Questions, f"test_{path.stem}", test)


for file in FILES:
    add_test(file)


if __name__ == "__main__":
    main()
