"""Archives of the layouts 1 and 2, in databases that SQLite makes by the statements of this file. No released program made one, so that these
are what tests have of them. What an archive holds is written down here as a program of that layout would have left it: digests, indices and
numbers are computed by a few lines of Python."""
import contextlib
import dataclasses
import hashlib
import pathlib
import sqlite3
import time

from uploads import uploads

DATA = pathlib.Path(__file__).resolve().parent.parent / "crates/archive/data"

BOX = "Codename: box\nArchitectures: amd64 source\nComponents: main\n"
LAB = "Codename: lab\nArchitectures: amd64\nComponents: main\n"

# 2016-07-02 05:20:50 UTC, when the queue was run.
RUN = 1467436850

# A package whose upload waits.
SMALL = uploads.Package("small")

# The number of bytes of a piece of a body, except the last.
PIECE = 65_536

# A print: a size, and three digests.
PRINT = "size INTEGER NOT NULL, md5 BLOB NOT NULL, sha1 BLOB NOT NULL, sha256 BLOB NOT NULL"

META = "CREATE TABLE meta (version INTEGER NOT NULL, configuration BLOB NOT NULL) STRICT"
COMMON = [
    "CREATE TABLE uploads (arrival INTEGER PRIMARY KEY REFERENCES arrivals (id), place INTEGER UNIQUE, verdict INTEGER) STRICT",
    f"CREATE TABLE wants (upload INTEGER NOT NULL REFERENCES uploads (arrival), name TEXT NOT NULL, {PRINT}, here INTEGER NOT NULL, PRIMARY KEY (upload, name)) STRICT",
    "CREATE TABLE items (id INTEGER PRIMARY KEY, suite TEXT NOT NULL, kind INTEGER NOT NULL, package TEXT NOT NULL, architecture TEXT NOT NULL, version TEXT NOT NULL, component TEXT NOT NULL, source TEXT NOT NULL, paragraph BLOB NOT NULL, UNIQUE (suite, kind, package, architecture)) STRICT",
    f"CREATE TABLE refs (item INTEGER NOT NULL REFERENCES items (id), number INTEGER NOT NULL, path TEXT NOT NULL, {PRINT}, PRIMARY KEY (item, number)) STRICT",
    "CREATE TABLE texts (path TEXT NOT NULL PRIMARY KEY, body BLOB NOT NULL) STRICT",
    "CREATE TABLE dates (suite TEXT NOT NULL PRIMARY KEY, moment INTEGER NOT NULL) STRICT",
]

# The tables of each layout, each in front of those that refer to it.
TABLES = {
    1: [
        META,
        f"CREATE TABLE arrivals (id INTEGER PRIMARY KEY, name TEXT NOT NULL, {PRINT}, body BLOB NOT NULL, UNIQUE (name, size, md5, sha1, sha256)) STRICT",
        *COMMON,
        f"CREATE TABLE files (path TEXT NOT NULL PRIMARY KEY, {PRINT}, body BLOB NOT NULL) STRICT",
    ],
    2: [
        META,
        "CREATE TABLE bodies (id INTEGER PRIMARY KEY, size INTEGER, md5 BLOB, sha1 BLOB, sha256 BLOB, UNIQUE (size, md5, sha1, sha256)) STRICT",
        "CREATE TABLE pieces (body INTEGER NOT NULL REFERENCES bodies (id), number INTEGER NOT NULL, bytes BLOB NOT NULL, PRIMARY KEY (body, number)) STRICT",
        "CREATE TABLE arrivals (id INTEGER PRIMARY KEY, name TEXT NOT NULL, body INTEGER NOT NULL REFERENCES bodies (id), UNIQUE (name, body)) STRICT",
        *COMMON,
        "CREATE TABLE files (path TEXT NOT NULL PRIMARY KEY, body INTEGER NOT NULL REFERENCES bodies (id)) STRICT",
    ],
}


def print_of(body):
    """The print of a body."""
    return (len(body), *(hashlib.new(name, body).digest() for name in ("md5", "sha1", "sha256")))


def date_of(moment):
    """A moment as a Release writes it, whatever the locale."""
    it = time.gmtime(moment)
    day, month = "Mon Tue Wed Thu Fri Sat Sun".split()[it.tm_wday], "Jan Feb Mar Apr May Jun Jul Aug Sep Oct Nov Dec".split()[it.tm_mon - 1]
    return f"{day}, {it.tm_mday:02} {month} {it.tm_year:04} {it.tm_hour:02}:{it.tm_min:02}:{it.tm_sec:02} UTC"


@dataclasses.dataclass
class Suite:
    """A suite of one component, `main`: its indices, each a text by its path, and its date."""

    codename: str
    architectures: list
    moment: int
    indices: dict

    def release(self):
        lines = [f"Codename: {self.codename}", f"Date: {date_of(self.moment)}", f"Architectures: {' '.join(self.architectures)}", "Components: main"]
        for field, name in (("MD5Sum", "md5"), ("SHA1", "sha1"), ("SHA256", "sha256")):
            lines += [f"{field}:", *(f" {hashlib.new(name, text).hexdigest()} {len(text)} {path}" for path, text in self.indices.items())]
        return "".join(f"{it}\n" for it in lines).encode()

    def texts(self):
        """Its texts, each by its path: the Release, and the indices."""
        return {f"dists/{self.codename}/{path}": text for path, text in {"Release": self.release(), **self.indices}.items()}


@dataclasses.dataclass
class Upload:
    """A .changes that arrived under this name, with the bodies of the files that it lists, and, if it is judged, its place and verdict."""

    name: str
    lists: dict
    place: int | None = None
    verdict: int | None = None


@dataclasses.dataclass
class Archive:
    """What an archive holds: its configuration; bodies by the names under which they arrived, in this order; uploads; items, each as its row
    without a number, with its files, and the files of the pool, each a body by its path; and suites."""

    configuration: str
    arrivals: list
    uploads: list
    items: list
    pool: dict
    suites: list

    def number(self, name):
        """The number of the arrival of this name."""
        return 1 + [it for it, _ in self.arrivals].index(name)

    def common_rows(self):
        """The rows that both layouts have."""
        for upload in self.uploads:
            number = self.number(upload.name)
            yield "uploads", (number, upload.place, upload.verdict)
            for name, body in upload.lists.items():
                yield "wants", (number, name, *print_of(body), int((name, body) in self.arrivals))
        for number, (item, files) in enumerate(self.items, 1):
            yield "items", (number, *item)
            for place, (path, body) in enumerate(files.items(), 1):
                yield "refs", (number, place, path, *print_of(body))
        for suite in self.suites:
            yield from (("texts", it) for it in suite.texts().items())
            yield "dates", (suite.codename, suite.moment)

    def first_rows(self):
        """The rows of layout 1: a body stands in each row of an arrival and of a file."""
        for number, (name, body) in enumerate(self.arrivals, 1):
            yield "arrivals", (number, name, *print_of(body), body)
        yield from (("files", (path, *print_of(body), body)) for path, body in self.pool.items())

    def second_rows(self):
        """The rows of layout 2: a body stands once, in pieces."""
        bodies = list(dict.fromkeys(body for _, body in self.arrivals))
        for number, body in enumerate(bodies, 1):
            yield "bodies", (number, *print_of(body))
            yield from (("pieces", (number, 1 + at // PIECE, body[at:at + PIECE])) for at in range(0, len(body), PIECE))
        for number, (name, body) in enumerate(self.arrivals, 1):
            yield "arrivals", (number, name, 1 + bodies.index(body))
        yield from (("files", (path, 1 + bodies.index(body))) for path, body in self.pool.items())

    def rows(self, layout):
        """The rows of a layout, each after those that it refers to."""
        yield "meta", (layout, self.configuration.encode())
        yield from self.first_rows() if layout == 1 else self.second_rows()
        yield from self.common_rows()

    def make(self, layout, path):
        """Makes a database file of a layout. Answers its path."""
        with contextlib.closing(sqlite3.connect(path)) as held, held:
            held.execute("PRAGMA foreign_keys = ON")
            for text in TABLES[layout]:
                held.execute(text)
            for table, row in self.rows(layout):
                held.execute(f"INSERT INTO {table} VALUES ({', '.join('?' * len(row))})", row)
        return path


def hello():
    """The files of the upload of hello, each a body by its name, the .changes first."""
    return {f"hello_1.0-1_amd64.{it}": (DATA / f"hello_1.0-1_amd64.{it}").read_bytes() for it in ("changes", "deb", "control")}


def archive(*, is_pair=False, more=(), configuration=None):
    """An archive whose suite box shows hello, which arrived and was run. After it there may be the suite lab, which shows nothing; and
    more uploads, each with the bodies that have arrived for it, its .changes first."""
    files = hello()
    (changes, _), (deb, package), (_, control) = files.items()
    path = "pool/main/h/hello/hello_1.0-1_amd64.deb"
    digests = "".join(f"{field}: {hashlib.new(name, package).hexdigest()}\n" for field, name in (("MD5sum", "md5"), ("SHA1", "sha1"), ("SHA256", "sha256")))
    index = control + f"Filename: {path}\nSize: {len(package)}\n{digests}\n".encode()
    suites = [Suite("box", ["amd64"], RUN, {"main/binary-amd64/Packages": index, "main/source/Sources": b""})]
    if is_pair:
        suites.append(Suite("lab", ["amd64"], 0, {"main/binary-amd64/Packages": b""}))
    uploads = [Upload(changes, {deb: package, "hello_1.0-1_amd64.control": control}, 1, 0)]
    return Archive(
        configuration=configuration or (f"{BOX}\n{LAB}" if is_pair else BOX),
        arrivals=[*files.items(), *(it for _, arrived in more for it in arrived.items())],
        uploads=[*uploads, *(upload for upload, _ in more)],
        items=[(("box", 1, "hello", "amd64", "1.0-1", "main", "hello", control), {path: package})],
        pool={path: package},
        suites=suites,
    )


def waiting():
    """An upload of which the .changes has arrived alone, with what arrived of it."""
    files = uploads.upload_of(SMALL)
    *names, changes = files
    return Upload(changes, {it: files[it] for it in names}), {changes: files[changes]}
