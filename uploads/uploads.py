"""Uploads with real packages, made for workloads: the same words give the same bytes, where zlib is the same.

An upload is the .deb of a package, its sidecar, where that is asked for its source, and the .changes that lists them. What
other tools want of the same files is in them too, so that these can be measured beside the archive.
"""
import dataclasses
import gzip
import hashlib
import io
import pathlib
import tarfile

# The configuration of an archive for these uploads: they come to `box`, and can be copied to `lab`.
CONFIGURATION = "\n".join(f"Codename: {suite}\nArchitectures: amd64 source\nComponents: main\n" for suite in ("box", "lab"))

# The moment of all that has a date, in seconds since 1970-01-01 00:00:00 UTC, and as a record tells it.
MOMENT = 1_467_435_600
DATE = "Sat, 02 Jul 2016 05:00:00 +0000"

LISTS = {"Checksums-Sha1": "sha1", "Checksums-Sha256": "sha256", "Files": "md5"}

RECORD = """Format: 1.8
Date: {date}
Source: {source}
Binary: {source}
Architecture: {architectures}
Version: {version}
Distribution: box
Urgency: low
Maintainer: Ann <ann@example.org>
Changed-By: Ann <ann@example.org>
Description:
 {source} - greets
Changes:
 {source} ({version}) box; urgency=low
 .
   * Made.
"""

CONTROL = """Package: {name}
Version: {version}
Architecture: amd64
Maintainer: Ann <ann@example.org>
Section: utils
Priority: optional
Description: greets as {name}
 A package of a made workload.
"""

DSC = """Format: 3.0 (quilt)
Source: {name}
Binary: {name}
Architecture: amd64
Version: {version}
Maintainer: Ann <ann@example.org>
Standards-Version: 4.6.2
"""


@dataclasses.dataclass(frozen=True)
class Package:
    """What an upload brings: a package, and its source where that comes too. Its .deb holds so many bytes of data that
    do not compress, and its description goes on for about so many bytes."""

    name: str
    version: str = "1.0-1"
    pad: int = 0
    description: int = 0
    source: bool = False


# A package whose .deb is nearly as large as a file may be, which is 4 MiB.
LARGE = Package("large", pad=4_190_000)


def tar_of(files):
    """A compressed tar of files, each a body by its name."""
    out = io.BytesIO()
    with tarfile.open(fileobj=out, mode="w", format=tarfile.USTAR_FORMAT) as tar:
        for name, body in files.items():
            entry = tarfile.TarInfo(name)
            entry.size, entry.mtime, entry.mode = len(body), MOMENT, 0o644
            tar.addfile(entry, io.BytesIO(body))
    return gzip.compress(out.getvalue(), mtime=0)


def ar_of(members):
    """An ar of members, each a body by its name."""
    parts = [b"!<arch>\n"]
    for name, body in members.items():
        parts.append(b"%-16s%-12d%-6d%-6d%-8o%-10d`\n" % (name.encode(), MOMENT, 0, 0, 0o100644, len(body)))
        parts.append(body + b"\n" * (len(body) % 2))
    return b"".join(parts)


def control_of(package):
    """The control paragraph of a package."""
    line = f" It greets as {package.name} does, and goes on to greet.\n"
    text = CONTROL.format(name=package.name, version=package.version)
    return (text + line * (package.description // len(line))).encode()


def deb_of(package):
    """The package file of a package."""
    data = {}
    if package.pad:
        seed = f"{package.name} {package.version}".encode()
        data[f"./usr/share/{package.name}"] = hashlib.shake_128(seed).digest(package.pad)
    return ar_of({
        "debian-binary": b"2.0\n",
        "control.tar.gz": tar_of({"./control": control_of(package)}),
        "data.tar.gz": tar_of(data),
    })


def lists_of(files, place=""):
    """The three lists of files, with the words that stand before a name in `Files`."""
    text = ""
    for field, digest in LISTS.items():
        before = place if field == "Files" else ""
        lines = [f" {hashlib.new(digest, body).hexdigest()} {len(body)} {before}{name}\n" for name, body in files.items()]
        text += f"{field}:\n{''.join(lines)}"
    return text


def changes_of(source, version, files):
    """The .changes of a source's files."""
    architectures = "amd64" + " source" * any(name.endswith(".dsc") for name in files)
    text = RECORD.format(date=DATE, source=source, version=version, architectures=architectures)
    return (text + lists_of(files, "utils optional ")).encode()


def source_of(package):
    """The source of a package: the upstream's files, Debian's, and the .dsc."""
    name, version = package.name, package.version
    upstream = version.rpartition("-")[0]
    control = f"Source: {name}\nMaintainer: Ann <ann@example.org>\n\nPackage: {name}\nArchitecture: any\nDescription: greets\n"
    changelog = f"{name} ({version}) box; urgency=low\n\n  * Made.\n\n -- Ann <ann@example.org>  {DATE}\n"
    debian = {"source/format": "3.0 (quilt)\n", "control": control, "changelog": changelog, "rules": "#!/usr/bin/make -f\n"}
    files = {
        f"{name}_{upstream}.orig.tar.gz": tar_of({f"{name}-{upstream}/greeting": f"hello, {name}\n".encode()}),
        f"{name}_{version}.debian.tar.gz": tar_of({f"debian/{path}": text.encode() for path, text in debian.items()}),
    }
    text = DSC.format(name=name, version=version) + lists_of(files)
    return {**files, f"{name}_{version}.dsc": text.encode()}


def upload_with(name, version, deb, control, more=()):
    """The files of an upload, each a body by its name, the .changes last: a .deb, its sidecar, and more."""
    stem = f"{name}_{version}_amd64"
    files = {f"{stem}.deb": deb, f"{stem}.control": control, **dict(more)}
    return {**files, f"{stem}.changes": changes_of(name, version, files)}


def upload_of(package):
    """The files of the upload of a package, each a body by its name, the .changes last."""
    more = source_of(package) if package.source else {}
    return upload_with(package.name, package.version, deb_of(package), control_of(package), more)


def write(folder, files):
    """Writes files to a new folder, and answers their paths."""
    folder = pathlib.Path(folder)
    folder.mkdir(parents=True)
    for name, body in files.items():
        (folder / name).write_bytes(body)
    return [str(folder / name) for name in files]


def name_of(number):
    """The name of the package of a number: they begin with all letters, and so stand all over the pool."""
    return f"{'abcdefghijklmnopqrstuvwxyz'[number % 26]}pkg{number:05}"


def small(count):
    """So many files of 4,096 bytes, which all differ, each a body by its name."""
    return {f"file{number}_1.0-1_amd64.deb": number.to_bytes(8, "little") + b"." * 4088 for number in range(count)}


def make(folder, count, first=0, source_every=0, **words):
    """Writes the uploads of so many packages to a new folder, from the number `first` on, each in a folder of its own. With
    each upload of a number that `source_every` divides comes the source. Answers the paths of each upload's files."""
    made = []
    for number in range(first, first + count):
        source = bool(source_every) and number % source_every == 0
        package = Package(name_of(number), source=source, **words)
        made.append(write(f"{folder}/{number:05}", upload_of(package)))
    return made
