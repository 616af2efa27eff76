"""What soak.py delivers: the files of uploads, and files that an archive has to refuse.

Some thirty sources have versions that rise. Three revisions of one upstream version share its tarball, which usually only the first
lists. An upload comes in one of several forms, some of which are refused. What the archive's configuration and an upload by itself
say of its verdict is decided here, by the rules of docs/FAULTS.md and not by the program."""
import dataclasses
import functools
import hashlib
import os
import threading

from uploads import uploads

SOURCES = 30

# The suites, each with the architectures and components that it keeps, and the distributions that it takes.
SUITES = {
    "box": ({"amd64", "arm64", "all", "source"}, {"main", "contrib"}, {"box", "unstable"}),
    "lab": ({"amd64", "all", "source"}, {"main"}, {"lab"}),
    "old": ({"amd64", "all"}, {"main"}, {"old", "attic"}),
}
CONFIGURATION = """Codename: box
Origin: Example
Architectures: amd64 arm64 source
Components: main contrib
AlsoAcceptFor: unstable
KeepDays: {keep}

Codename: lab
Architectures: amd64 source
Components: main
ValidDays: {valid}

Codename: old
Suite: attic
Architectures: amd64
Components: main
Uploaders:
 * by Ann <ann@example.org>
 lib* by anybody
"""
INDICES = {
    "box": [f"{part}/{it}" for part in ("main", "contrib") for it in ("source/Sources", "binary-amd64/Packages", "binary-arm64/Packages")],
    "lab": ["main/source/Sources", "main/binary-amd64/Packages"],
    "old": ["main/binary-amd64/Packages"],
}

# For how many days files count, and a Release of the second suite is valid, in the archives one after the other.
DAYS = ((7, 7), (14, 30), (3, 1), (7, 3650))

# In which form the uploads of a source come, one version after the other. Most are as they should be.
FORMS = (
    "good", "good", "rebuilt", "good", "lab", "bare", "good", "unstable", "good", "nosuite", "whole", "good",
    "old", "good", "control", "lab", "whole", "riscv", "good", "dsc", "unstable", "eve", "lost", "mixed",
)  # fmt: skip

# The most bytes that a file may have, and a body that has one more.
MOST = 4_194_304
TOO_LARGE = bytes(MOST + 1)


@functools.lru_cache(maxsize=20_000)
def print_of(body):
    """The size and the digests of a body."""
    return len(body), *(hashlib.new(name, body).digest() for name in ("md5", "sha1", "sha256"))


@dataclasses.dataclass(frozen=True)
class File:
    """A file to deliver. The archive refuses it with `fault`, or, if that ends with a star, with a fault that begins like it. A
    .changes has what it lists, as names and prints, and, if there is one, the verdict that it gets whatever is shown."""

    name: str
    body: bytes
    fault: str = ""
    listed: tuple = ()
    verdict: str = ""

    @functools.cached_property
    def key(self):
        return self.name, print_of(self.body)

    def stored(self, folder):
        """The path of the file below a folder. If it is not there it is written, and then put there whole."""
        path, new = f"{folder}/{self.key[1][3].hex()[:24]}/{self.name}", f"{folder}/{threading.get_ident()}"
        if not os.path.exists(path):
            os.makedirs(os.path.dirname(path), exist_ok=True)
            with open(new, "wb") as it:
                it.write(self.body)
            os.replace(new, path)
        return path


@dataclasses.dataclass(frozen=True)
class Source:
    """A source, and what its uploads bring: packages of its name for architectures, perhaps one of data, perhaps itself."""

    number: int

    @property
    def name(self):
        return "lib" * (self.number % 7 == 3) + uploads.name_of(self.number)

    @property
    def packages(self):
        """The packages, each as its name and architecture."""
        architectures = (("amd64",), ("amd64", "arm64"), ("all",))[self.number % 3]
        return [(self.name, it) for it in architectures] + [(f"{self.name}-data", "all")] * (self.number % 5 == 1)

    @property
    def brings_source(self):
        return self.number % 4 != 3

    @property
    def component(self):
        return "contrib" if self.number % 10 == 9 else "main"

    def version(self, step):
        """The version at a step, and its part that stands in names of files."""
        plain = f"1.{step // 3}-{step % 3 + 1}"
        return ("1:" if self.number % 6 == 5 else "") + plain, plain


def filling(text, size):
    """A body of this number of bytes that begins with a text."""
    return text.encode() + hashlib.shake_128(text.encode()).digest(size)


def debs_of(source, step, form):
    """The packages and sidecars of an upload, each a body by its name."""
    version, plain = source.version(step)
    size = 90_000 + 40_000 * (step % 3) if source.number in (4, 17) else 40 + 37 * source.number
    files = {}
    for package, architecture in source.packages:
        stem = f"{package}_{plain}_{architecture}"
        control = uploads.CONTROL.format(name=package, version=version).replace("amd64", architecture)
        if package != source.name or form == "control":
            control += f"Source: {source.name}{'x' * (form == 'control')}\n"
        files[f"{stem}.deb"] = filling(f"{stem} {'rebuilt' * (form == 'rebuilt')}", size)
        if form != "bare":
            files[f"{stem}.control"] = control.encode()
    return files


def sources_of(source, step, form):
    """The source files of an upload, each a body by its name, and the tarball that it may leave out."""
    version, plain = source.version(step)
    tar = f"{source.name}_{plain.partition('-')[0]}.orig.tar.gz"
    files = {
        tar: filling(tar, 150_000 if source.number == 8 else 500),
        f"{source.name}_{plain}.debian.tar.gz": filling(f"debian {plain}", 200 + step % 50),
    }
    told = f"{version}x" if form == "dsc" else version
    text = uploads.DSC.format(name=source.name, version=told) + uploads.lists_of(files)
    return {**files, f"{source.name}_{plain}.dsc": text.encode()}, tar


def changes_of(source, step, form, files, listed):
    """The .changes of an upload, and what its architectures, components and distribution are."""
    architectures = sorted({it for _, it in source.packages}) + ["source"] * any(it.endswith(".dsc") for it in files)
    architectures += ["riscv64"] * (form == "riscv")
    distribution = {"nosuite": "moon", "eve": "attic"}.get(form, form if form in ("lab", "old", "unstable") else "box")
    text = uploads.changes_of(source.name, source.version(step)[0], listed).decode()
    text = text.replace("Distribution: box\n", f"Distribution: {distribution}\n")
    text = text.replace(text[text.index("Architecture: "):text.index("Version: ")], f"Architecture: {' '.join(architectures)}\n")
    if source.component != "main":
        text = text.replace(" utils optional ", f" {source.component}/utils optional ")
    if form == "mixed":
        text = text.replace("utils optional ", "free/utils optional ", 1).replace("contrib/free/", "free/")
    if form == "eve":
        text = text.replace("Changed-By: Ann <ann@example.org>", "Changed-By: Eve <eve@example.org>")
    return text.encode(), set(architectures), distribution


def verdict_of(source, form, architectures, distribution):
    """The verdict that an upload has whatever is shown: the lowest of docs/FAULTS.md that applies, up to 7."""
    suite = next((it for it, (_, _, taken) in SUITES.items() if distribution in taken), None)
    if suite is None:
        return "1"
    kept, components, _ = SUITES[suite]
    rows = (
        ("2", architectures - kept),
        ("3", suite == "old" and form == "eve" and not source.name.startswith("lib")),
        ("4", form == "mixed" or source.component not in components),
        ("5", form == "bare"),
        ("6", form == "dsc" and "source" in architectures),
        ("7", form == "control"),
    )
    return next((verdict for verdict, applies in rows if applies), "")


@functools.lru_cache(maxsize=4096)
def upload_of(number, step, form):
    """The files of an upload, the .changes last."""
    source = Source(number)
    files, left_out = debs_of(source, step, form), ""
    if source.brings_source and form not in ("old", "eve"):
        more, left_out = sources_of(source, step, form)
        files.update(more)
    if step % 3 == 0 or form == "whole":
        left_out = ""
    given = {it: body for it, body in files.items() if it != left_out}
    listed = {**given, **({next(iter(given)): b"a body that never comes"} if form == "lost" else {})}
    text, architectures, distribution = changes_of(source, step, form, files, listed)
    prints = tuple((it, print_of(body)) for it, body in listed.items())
    name = f"{source.name}_{source.version(step)[1]}_amd64.changes"
    changes = File(name, text, "", prints, verdict_of(source, form, architectures, distribution))
    return *(File(it, body) for it, body in given.items()), changes


def form_of(number, step, is_other):
    """One of the two forms in which the upload of a source comes at a step."""
    return FORMS[(7 * number + 5 * step + 11 * is_other) % len(FORMS)]


# ---- what is refused


BAD_NAMES = (".hid", "~1", "a b.deb", "-x.changes", "_x", "a\u00e9.deb", "a" * 201, "a%41.deb", "a:b", "a,b.control")

# How a .changes is spoilt, and the fault that it has then.
SPOILT = (
    (lambda text, chance: b"", "Q3 C1 P8"),
    (lambda text, chance: b"-----BEGIN PGP SIGNED MESSAGE-----\nHash: SHA512\n\n" + text, "Q3 C1 P3:1"),
    (lambda text, chance: text.replace(b"\n", b"\r\n"), "Q3 C1 P2:1"),
    (lambda text, chance: text.replace(b"Ann", b"\xc4nn"), "Q3 C1 P1"),
    (lambda text, chance: text.replace(b"Date: ", b"Day: "), "Q3 C2 Date"),
    (lambda text, chance: text.replace(b"Format: 1.8", b"Format: 1.7"), "Q3 C4"),
    (lambda text, chance: text.replace(b"Checksums-Sha1:", b"Checksums-Sha1: all"), "Q3 C9 S2"),
    (lambda text, chance: text[: chance.randrange(1, len(text) - 2)], "Q3*"),
    (lambda text, chance: chance.randbytes(chance.randrange(1, 300)), "Q3*"),
    (lambda text, chance: text + b"\n" + text, "Q3 C1 P9"),
    (lambda text, chance: text + b"Date: Sun\n", "Q3 C1 P7*"),
    (lambda text, chance: text + b" " * (1_048_577 - len(text)), "Q3 C1 P10"),
)


def spoilt(file, chance):
    """A .changes that is no longer valid."""
    change, fault = SPOILT[min(int(chance.expovariate(0.3)), len(SPOILT) - 1)]
    return File(file.name, change(file.body, chance), fault)


def wrong(file, chance):
    """A file of an upload with another body: cut off, longer, or another altogether."""
    if file.name.endswith(".changes"):
        return spoilt(file, chance)
    kind = chance.randrange(4)
    body = (file.body[: len(file.body) // 2], file.body + b"\n", b"wrong %d" % chance.randrange(3), b"")[kind]
    return File(file.name, body)


def ill_named(file, chance):
    """A file under a name that no file may have, or a file that is too large."""
    if chance.random() < 0.03:
        return File(file.name, TOO_LARGE, "Q2")
    return File(chance.choice(BAD_NAMES), file.body, "Q1")


def again_named(file, chance):
    """A .changes under a name of its own, or without its last line feed: another one to judge."""
    if chance.random() < 0.3:
        return dataclasses.replace(file, body=file.body[:-1])
    return dataclasses.replace(file, name=f"again{chance.randrange(3)}_{file.name}")
