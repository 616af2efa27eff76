"""Writes the rows of archives that serve for long, into crates/test_archives/data or the folder that is named.

    python3 -m tests.write_serving_rows [FOLDER]

keeper_serves.rows has 200 uploads of different packages, with a cleaning and an opening anew after every tenth, removals of the first, and a
promotion of all others; desk_serves.rows has 100 requests of each route.
What is wanted comes from here and not from the program: the digests are hashlib's, and the indices are written by their definition."""
import hashlib
import os
import sys
import time

ROOT = os.path.dirname(os.path.dirname(os.path.abspath(__file__)))
DATA = f"{ROOT}/crates/test_archives/data"
MOMENT = 1467436850
UPLOADS = 200
ROUNDS = 100
HASHES = {"md5": hashlib.md5, "sha1": hashlib.sha1, "sha256": hashlib.sha256}
LISTS = [("MD5Sum", "md5"), ("SHA1", "sha1"), ("SHA256", "sha256")]
END = " HTTP/1.1\r\n\r\n"

# The .changes and the sidecar of each package. A word that begins with @ is replaced by the package's own value.
CHANGES = """Format: 1.8
Date: Sat, 02 Jul 2016 05:00:00 +0000
Source: @package
Version: 1.0-1
Architecture: amd64
Distribution: box
Maintainer: Ann <ann@example.org>
Changes:
 * Made.
Checksums-Sha1:
 @deb-sha1 @deb-size @package_1.0-1_amd64.deb
 @own-sha1 @own-size @package_1.0-1_amd64.control
Checksums-Sha256:
 @deb-sha256 @deb-size @package_1.0-1_amd64.deb
 @own-sha256 @own-size @package_1.0-1_amd64.control
Files:
 @deb-md5 @deb-size utils optional @package_1.0-1_amd64.deb
 @own-md5 @own-size utils optional @package_1.0-1_amd64.control
"""
SIDECAR = """Package: @package
Version: 1.0-1
Architecture: amd64
Maintainer: Ann <ann@example.org>
Description: greets
"""


def digest(kind, text):
    return HASHES[kind](text.encode()).hexdigest()


class Package:
    """A package, its three files, and what Packages has of it."""

    def __init__(self, number):
        self.name = f"package{number}"
        self.file = f"{self.name}_1.0-1_amd64"
        self.path = f"pool/main/p/{self.name}/{self.file}.deb"
        self.deb = f"file of {self.name}\n"
        self.sidecar = SIDECAR.replace("@package", self.name)

    def pairs(self):
        """The words that stand in the .changes, and what is to stand there."""
        pairs = [("@package", self.name)]
        for front, text in [("@deb", self.deb), ("@own", self.sidecar)]:
            pairs += [(f"{front}-size", str(len(text)))]
            pairs += [(f"{front}-{kind}", digest(kind, text)) for kind in HASHES]
        return pairs

    def changes(self):
        text = CHANGES
        for old, new in self.pairs():
            text = text.replace(old, new)
        return text

    def stanza(self):
        return (
            f"{self.sidecar}Filename: {self.path}\nSize: {len(self.deb)}\nMD5sum: {digest('md5', self.deb)}\n"
            f"SHA1: {digest('sha1', self.deb)}\nSHA256: {digest('sha256', self.deb)}\n\n"
        )


def in_order(packages):
    """The packages in the order of the bytes of their names."""
    return sorted(packages, key=lambda it: it.name.encode())


def index(packages):
    """Packages: the stanzas in the order of the bytes of the names."""
    return "".join(it.stanza() for it in in_order(packages))


def release(suite, moment, indices):
    """Release of a suite with these indices, each a path and a text."""
    date = time.strftime("%a, %d %b %Y %H:%M:%S UTC", time.gmtime(moment))
    lines = [f"Codename: {suite}", f"Date: {date}", "Architectures: amd64", "Components: main"]
    for field, kind in LISTS:
        lines += [f"{field}:"] + [f" {digest(kind, text)} {len(text)} {path}" for path, text in indices]
    return "\n".join(lines) + "\n"


def quoted(text):
    escaped = text.replace("\\", "\\\\").replace('"', '\\"').replace("\n", "\\n").replace("\r", "\\r")
    return f'"{escaped}"'


def as_lines(text):
    return "".join(f"|{line}\n" for line in text.split("\n")[:-1])


def templates():
    return f"text package.changes\n{as_lines(CHANGES)}\ntext package.control\n{as_lines(SIDECAR)}\n"


def words_of(pairs):
    return " ".join(f"{old} {new}" for old, new in pairs)


def verdicts(count):
    """The lines on the first uploads, as one word."""
    return f'"accepted package\\i_1.0-1_amd64.changes\\n"*{count}' if count else '""'


class Keeper:
    """The rows of keeper_serves, and what the archive shows after them."""

    def __init__(self):
        self.out = []
        self.box = []
        self.lab = []
        self.dates = {"box": 0, "lab": 0}
        # For each package that is not judged, the files that have arrived.
        self.arrived = {}

    def say(self, text):
        self.out.append(text)

    def deliver(self, package, *kinds):
        """Deliveries of files of a package, which are new."""
        for kind in kinds:
            name = f"deliver {package.file}.{kind}"
            if kind == "changes":
                self.say(f"{name} $package.changes {words_of(package.pairs())} = new\n")
            elif kind == "control":
                self.say(f"{name} $package.control @package {package.name} = new\n")
            else:
                self.say(f"{name} {quoted(package.deb)} = new\n")
            self.arrived.setdefault(package.file, set()).add(kind)

    def wait(self):
        """The uploads without a verdict, in the order of the bytes of their names."""
        waiting = [(file, kinds) for file, kinds in sorted(self.arrived.items()) if "changes" in kinds]
        lines = "".join(f"|{3 - len(kinds)} {file}.changes\n" for file, kinds in waiting)
        self.say(f"waiting\n{lines}" if lines else 'waiting = ""\n')

    def run(self, packages, moment):
        """A run that accepts these packages, and their files in the pool."""
        lines = "".join(f"|accepted {package.file}.changes\n" for package in packages)
        self.say(f"run {moment}\n{lines}")
        for package in packages:
            self.show_file(package)
            del self.arrived[package.file]
            self.box.append(package)
        self.dates["box"] = moment

    def show_file(self, package):
        self.say(f"show {package.path} = {quoted(package.deb)}\n")

    def complete(self, package):
        """The files that a package still lacks. Before the last file of a new one comes, it waits."""
        kinds = self.arrived.get(package.file, set())
        if not kinds:
            self.deliver(package, "changes", "control")
            self.wait()
            self.deliver(package, "deb")
        else:
            self.deliver(package, *(kind for kind in ("control", "deb") if kind not in kinds))

    def copy(self, package, moment):
        """A copy of a package, and the same again."""
        self.say(f"copy box lab {package.name} {moment} = 1\n")
        self.say(f"copy box lab {package.name} {moment + 1} = 0\n")
        self.lab.append(package)
        self.dates["lab"] = moment

    def remove(self, suite, shown, package, moment):
        """A removal of a package, and the same again."""
        self.say(f"remove {suite} {package.name} {moment} = 1\n")
        self.say(f"remove {suite} {package.name} {moment + 1} = Q11\n")
        shown.remove(package)
        self.dates[suite] = moment

    def promote(self, moment):
        """A promotion of all that box shows, of which some is copied already."""
        packages = in_order(self.box)
        lines = "".join(f"|{int(it not in self.lab)} {it.name}\n" for it in packages)
        self.say(f"promote box lab {moment}\n{lines}")
        self.lab = packages
        self.dates["lab"] = moment

    def reopen(self):
        """A cleaning, which takes nothing if nothing ends, and an opening anew."""
        self.say("clean 1467440000 = 0\nreopen = opened\n")

    def show_releases(self):
        box = [("main/binary-amd64/Packages", index(self.box)), ("main/source/Sources", "")]
        self.say("show dists/box/Release\n" + as_lines(release("box", self.dates["box"], box)))
        lab = [("main/binary-amd64/Packages", index(self.lab))]
        self.say("show dists/lab/Release\n" + as_lines(release("lab", self.dates["lab"], lab)))

    def show_judged(self):
        self.say(f"verdicts = {verdicts(len(self.box))}\n")


def keeper_rows():
    rows = Keeper()
    packages = [Package(number) for number in range(UPLOADS)]
    rows.say(
        "# keeper_serves, two_hundred_uploads: 200 uploads of different packages, of which some are run one by one, and some ten at\n"
        "# a time; the archive is cleaned and opened anew after every tenth, while others wait; with look-ups, copies, lists of what waits\n"
        "# and of verdicts between. Their names come in another order than that of the index. Made by tests/write_serving_rows.py.\n\n"
    )
    rows.say(templates())
    rows.say("archive $pair = made\n")
    for first in range(0, UPLOADS, 10):
        ten = packages[first : first + 10]
        if first % 20 == 0:
            rows.say(f"\n# Ten uploads from package{first} on, each with a run, and a copy of the first.\n")
            for number, package in enumerate(ten, first):
                rows.complete(package)
                rows.run([package], MOMENT + number)
        else:
            rows.say(f"\n# Ten uploads from package{first} on, all in one run, and a copy of the first.\n")
            for package in ten:
                rows.complete(package)
            rows.wait()
            rows.run(ten, MOMENT + first + 9)
        rows.copy(ten[0], MOMENT + first + 10)
        if first + 10 < UPLOADS:
            one, two, three, four = packages[first + 10 : first + 14]
            rows.deliver(one, "deb", "control", "changes")
            rows.deliver(two, "changes", "control")
            rows.deliver(three, "changes")
            rows.deliver(four, "deb", "changes")
        rows.show_releases()
        rows.reopen()
        rows.wait()
        rows.show_judged()
        rows.show_releases()
        rows.show_file(ten[5])
        rows.say(f"deliver {ten[5].file}.deb {quoted(ten[5].deb)} = again\n")
    rows.say("\n# Nothing is left to judge, and the indices have the stanzas of all.\n")
    rows.say('run 1467440000 = ""\n')
    rows.wait()
    rows.show_judged()
    rows.show_releases()
    rows.say("show dists/box/main/binary-amd64/Packages\n" + as_lines(index(rows.box)))
    rows.say("show dists/lab/main/binary-amd64/Packages\n" + as_lines(index(rows.lab)))
    rows.say("\n# A package is removed from lab, and then from box, and its file with it.\n")
    rows.remove("lab", rows.lab, packages[0], 1467440001)
    rows.show_file(packages[0])
    rows.remove("box", rows.box, packages[0], 1467440002)
    rows.say(f"has {packages[0].path} = no\n")
    rows.show_releases()
    rows.reopen()
    rows.show_releases()
    rows.say("\n# All that box shows is copied to lab in one change.\n")
    rows.promote(1467440003)
    rows.show_releases()
    rows.reopen()
    rows.show_releases()
    return "".join(rows.out)


def reply(body, length=None):
    """The reply that is done, with a body of text; or, if its length is given, with this word."""
    if length is None:
        length, body = len(body), quoted(body)
    return f'$ok+"{length}"+$end+{body}'


def desk_round(number, shown):
    """The requests of one package."""
    package = Package(number)
    shown.append(package)
    ask = f"request {[1, 7, 1000][number % 3]} {MOMENT + number}"

    def put(kind, text, body, pairs):
        head = quoted(f"PUT /incoming/{package.file}.{kind} HTTP/1.1\r\nContent-Length: {len(text)}\r\n\r\n")
        return f"{ask} {head}+{body}{pairs} = $created\n"

    def send(line, wanted):
        return f"{ask} {quoted(line + END)} = {wanted}\n"

    lab = release("lab", MOMENT + number, [("main/binary-amd64/Packages", index(shown))])
    accepted = f"accepted {package.file}.changes\n"
    # The package alone is in lab no more.
    promoted = "".join(f"{int(it is package)} {it.name}\n" for it in in_order(shown))
    lengths = sum(len(f"accepted package{it}_1.0-1_amd64.changes\n") for it in range(number + 1))
    return (
        put("changes", package.changes(), "$package.changes", f" {words_of(package.pairs())}")
        + put("deb", package.deb, quoted(package.deb), "")
        + send("GET /queue", reply(f"1 {package.file}.changes\n"))
        + put("control", package.sidecar, "$package.control", f" @package {package.name}")
        + send("POST /queue/run", reply(accepted))
        + send(f"POST /copy/box/lab/{package.name}", reply("1\n"))
        + send(f"POST /remove/lab/{package.name}", reply("1\n"))
        + send("POST /promote/box/lab", reply(promoted))
        + send("POST /queue/clean", reply("0\n"))
        + send("GET /verdicts", reply(verdicts(number + 1), lengths))
        + send("GET /dists/lab/Release", reply(lab))
        + send(f"GET /{package.path}", f'$file+"{len(package.deb)}"+$end+{quoted(package.deb)}')
    )


def desk_rows():
    text = (
        "# desk_serves: at least 100 requests of each route, by 1, 7 or 1000 bytes a read; none is answered 507, H1 or H2. Made by\n"
        "# tests/write_serving_rows.py.\n\n"
    )
    text += templates()
    for name, kind in [("ok", "text/plain; charset=utf-8"), ("file", "application/octet-stream")]:
        front = f"HTTP/1.1 200 OK\r\nContent-Type: {kind}\r\nContent-Length: "
        text += f"text {name} {quoted(front)}\n"
    behind = "\r\nConnection: close\r\n\r\n"
    text += f"text end {quoted(behind)}\n"
    text += "\narchive $pair = made\n"
    shown = []
    for number in range(ROUNDS):
        text += f"\n# package{number}\n" + desk_round(number, shown)
    return text


def main(words):
    folder = words[0] if words else DATA
    for name, text in [("keeper_serves.rows", keeper_rows()), ("desk_serves.rows", desk_rows())]:
        with open(f"{folder}/{name}", "w", encoding="utf-8") as out:
            out.write(text)


if __name__ == "__main__":
    main(sys.argv[1:])
