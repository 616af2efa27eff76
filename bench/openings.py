"""What an opening takes, by what the archive holds, beside what the library `sqlite` takes of it.

    python3 -m bench.openings ARCHIVE FOLDER [--bodies 100] [--judged 10000] [--verdicts 40000] [--waiting 4000] [--large] [--rounds 1]
    python3 -m bench.openings ARCHIVE FOLDER --bodies 125,500,2500 --judged 0 --verdicts 0 --waiting 0

ARCHIVE is the program, FOLDER a new folder to work in. Each archive is made by `init`. Its rows are then written into the file by
Python's sqlite3, since to hand everything in takes too long. The opening judges that they are those of an archive. They are those of

    so many bodies of 4,000,000 bytes (--bodies), each delivered and in no upload; of several numbers, as above for 0.5, 2 and 10 GB, each is an archive
    so many uploads (--judged) that have a verdict, each shown
    some years: so many uploads that have a verdict (--verdicts), four versions of each package, of which the last is shown. A
        cleaning took the files of the first sixth away, so that for 40,000 verdicts 100,000 arrivals are left
    so many uploads that wait for their sidecar (--waiting)
    with --large some years, and 500 bodies of 4,000,000 bytes beside

A number that is 0 leaves an archive out. An opening holds all bodies in memory: an archive that has more of them than fit is left out, too, and
standard error says so. The file of an archive is removed once it was measured. The table has three columns, and of several rounds the least is told:

    archive: `verdicts`, which opens the archive and lists what was judged
    sqlite alone: the same of the same file, one of whose tables has another name. The library, by which the program reads database files,
        opens it and checks all of it. Then the program sees that it is no archive, and ends
    three digests: those of all bodies by Python's hashlib. To read the bodies is not counted
"""
import contextlib
import functools
import glob
import hashlib
import os
import pathlib
import sqlite3
import sys

from bench import measure, ways
from tests.run import free_memory
from uploads import uploads

# The most bytes of a piece of a body, and the bytes of a large body.
PIECE_SIZE, LARGE_SIZE = 65_536, 4_000_000

# The number of large bodies with --large.
LARGE_COUNT = 500

# How much memory is to be free for an opening: this many times the bytes of the large bodies, which it holds once, and some more.
ROOM = 1.25

# The number of versions of a package that come in some years, and the number of uploads of which one has its files
# cleaned away.
VERSIONS, CLEANED = 4, 6

# The kind of an item that is a package, and the number of the verdict of an upload that was accepted.
PACKAGE, ACCEPTED = 1, 0

RELEASE, PACKAGES = "dists/box/Release", "main/binary-amd64/Packages"
DIGESTS = ("md5", "sha1", "sha256")


def print_of(body):
    """The size and the three digests of a body, as columns hold them."""
    return len(body), *(hashlib.new(it, body).digest() for it in DIGESTS)


class Rows:
    """The rows of an archive that nothing was handed to."""

    def __init__(self, held):
        self.held, self.judged, self.texts = held, 0, {}

    def add(self, table, *values):
        """Adds a row at the end of a table, and answers its number."""
        return self.held.execute(f"INSERT INTO {table} VALUES ({', '.join('?' * len(values))})", values).lastrowid

    def deliver(self, name, body):
        """Delivers a file with a body that no other has. Answers the number of the body."""
        number = self.add("bodies", None, *print_of(body))
        for place, first in enumerate(range(0, len(body), PIECE_SIZE), 1):
            self.add("pieces", number, place, body[first:first + PIECE_SIZE])
        self.add("arrivals", None, name, number, 0)
        return number

    def judge(self, name, body):
        """Records a .changes as accepted."""
        self.judged += 1
        self.add("uploads", None, name, *print_of(body), self.judged, ACCEPTED)

    def wait(self, name, body, listed):
        """Records a .changes as one that waits for these files, each a body by its name and whether it has arrived."""
        upload = self.add("uploads", None, name, *print_of(body), None, None)
        for wanted, contents, is_here in listed:
            self.add("wants", upload, wanted, *print_of(contents), int(is_here))

    def show(self, package, deb, body, number):
        """Shows a package in `box`, whose .deb has this name, body and number of its body."""
        path, size, paragraph = ways.pool_path_of(deb), len(body), uploads.control_of(package)
        name = package.name
        item = self.add("items", None, "box", PACKAGE, name, "amd64", package.version, "main", name, paragraph)
        self.add("refs", item, 1, path, *print_of(body))
        self.add("files", path, number)
        md5, sha1, sha256 = (hashlib.new(it, body).hexdigest() for it in DIGESTS)
        told = f"Filename: {path}\nSize: {size}\nMD5sum: {md5}\nSHA1: {sha1}\nSHA256: {sha256}\n\n"
        self.texts[name] = paragraph + told.encode()

    def finish(self):
        """Writes into the indices of `box` what it shows."""
        [release] = self.held.execute("SELECT body FROM texts WHERE path = ?", (RELEASE,)).fetchone()
        packages = b"".join(text for _, text in sorted(self.texts.items()))
        for digest in DIGESTS:
            empty, full = (f"{hashlib.new(digest, it).hexdigest()} {len(it)} {PACKAGES}".encode() for it in (b"", packages))
            release = release.replace(empty, full)
        for path, text in ((f"dists/box/{PACKAGES}", packages), (RELEASE, release)):
            self.held.execute("UPDATE texts SET body = ? WHERE path = ?", (text, path))


@contextlib.contextmanager
def opened(file):
    """A database file, in one transaction while the `with` lasts."""
    held = sqlite3.connect(file)
    with held:
        yield held
    held.close()


def large_bodies(rows, count):
    """Adds this number of large bodies, each delivered."""
    for number in range(count):
        name = f"file{number}_1.0-1_amd64.deb"
        rows.deliver(name, hashlib.shake_128(name.encode()).digest(LARGE_SIZE))


def upload(rows, package, is_there=True, is_last=True):
    """An upload that was accepted. Its files are there, or were cleaned away, and it is shown, or a later one of its package is."""
    files = uploads.upload_of(package)
    deb, _, changes = files
    numbers = {name: rows.deliver(name, body) for name, body in files.items()} if is_there else {}
    rows.judge(changes, files[changes])
    if is_last:
        rows.show(package, deb, files[deb], numbers[deb])


def judged(rows, count):
    """Adds this number of uploads that have a verdict, each shown."""
    for number in range(count):
        upload(rows, uploads.Package(uploads.name_of(number)))


def years(rows, count):
    """Adds this number of uploads that have a verdict, as some years leave them."""
    packages = -(-count // VERSIONS)
    for number in range(count):
        version, package = divmod(number, packages)
        made = uploads.Package(uploads.name_of(package), version=f"{version + 1}.0-1")
        upload(rows, made, is_there=number >= count // CLEANED, is_last=number >= count - packages)


def waiting(rows, count):
    """Adds this number of uploads that wait for their sidecar."""
    for number in range(count):
        files = uploads.upload_of(uploads.Package(uploads.name_of(number)))
        deb, control, changes = files
        for name in (deb, changes):
            rows.deliver(name, files[name])
        rows.wait(changes, files[changes], [(deb, files[deb], True), (control, files[control], False)])


def large(rows, count):
    """Adds what `years` adds, and large bodies too."""
    years(rows, count)
    large_bodies(rows, LARGE_COUNT)


def made(line, fill, count):
    """Makes an archive whose rows `fill` adds, for this number of bodies or uploads. Answers its file."""
    file = f"{line.folder}/{fill.__name__}.db"
    measure.line([line.archive, "init", "--db", file, "--at", "0", f"{line.folder}/box.conf"])
    with opened(file) as held:
        rows = Rows(held)
        fill(rows, count)
        rows.finish()
    return file


def told(file):
    """What an archive holds, in words, and how many verdicts there are."""
    with opened(file) as held:
        arrivals, size = held.execute("SELECT (SELECT count(*) FROM arrivals), (SELECT sum(size) FROM bodies)").fetchone()
        there, verdicts = held.execute("SELECT count(*), count(verdict) FROM uploads").fetchone()
    parts = [f"{arrivals:,} arrivals"]
    parts += [f"{verdicts:,} verdicts"] if verdicts else []
    parts += [f"{there - verdicts:,} uploads that wait"] if there > verdicts else []
    return f"{', '.join(parts)}, {measure.figure(size / 1e6)} MB of bodies", verdicts


def opening(line, file, verdicts):
    """What an opening takes, if this number of verdicts is listed."""
    taken, printed = measure.line([line.archive, "verdicts", "--db", file])
    ways.check(printed.count(b"accepted "), verdicts)
    return taken


def library(line, file):
    """What an opening takes until the program sees that the file lacks a table of an archive."""
    taken, printed = measure.line([line.archive, "verdicts", "--db", file], status=1)
    ways.check(printed, b"archive: K4\n")
    return taken


def least(line, one):
    """The least of what all rounds take."""
    return functools.reduce(measure.Taken.least, [one() for _ in range(line.rounds)])


def has_room(count):
    """Whether an opening of an archive with this number of large bodies fits into the memory that is free. If not, standard error is told."""
    needed, free = ROOM * count * LARGE_SIZE, free_memory()
    if needed > free:
        print(f"{count:,} bodies are left out: an opening takes {needed / 1e9:.1f} GB of memory, and {free / 1e9:.1f} GB are free", file=sys.stderr)
    return needed <= free


def row(line, file):
    """What an archive holds, and the values of each column for it."""
    what, verdicts = told(file)
    ours = least(line, lambda: opening(line, file, verdicts))
    with opened(file) as held:
        held.execute("ALTER TABLE dates RENAME TO other")
    alone = least(line, lambda: library(line, file))
    with opened(file) as held:
        held.execute("ALTER TABLE other RENAME TO dates")
    digests = least(line, lambda: measure.digests(file))
    for path in glob.glob(f"{file}*"):
        os.remove(path)
    return what, [ours, alone, digests]


def main():
    words = measure.words(__doc__)
    words.add_argument("--bodies", type=measure.numbers, default=[100])
    words.add_argument("--judged", type=int, default=10_000)
    words.add_argument("--verdicts", type=int, default=40_000)
    words.add_argument("--waiting", type=int, default=4_000)
    words.add_argument("--large", action="store_true")
    words.add_argument("--rounds", type=int, default=1)
    line = words.parse_args()
    os.mkdir(line.folder)
    pathlib.Path(line.folder, "box.conf").write_text(uploads.CONFIGURATION)
    parts = [(large_bodies, it) for it in line.bodies if has_room(it)]
    parts += [(judged, line.judged), (years, line.verdicts), (waiting, line.waiting)]
    if line.large and has_room(LARGE_COUNT):
        parts.append((large, line.verdicts))
    rows = [row(line, made(line, fill, count)) for fill, count in parts if count]
    print(measure.heading())
    print(measure.table_of(["archive", "sqlite alone", "three digests"], rows))


if __name__ == "__main__":
    main()
