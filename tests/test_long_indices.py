"""Tests of indices of several hundred thousand bytes, whose prints go on from those before them: over one `serve`, each Release lists
the sizes and digests of the indices beside it, as hashlib makes them, wherever in an index an item comes, changes or goes. The
program is that of program.py."""
import hashlib
import re
import tempfile

from tests.program import Lines, Serving, get, put_of, status_of
from tests.wants import main
from uploads import uploads

INDICES = ("main/binary-amd64/Packages", "main/source/Sources")
DIGESTS = {"MD5Sum": "md5", "SHA1": "sha1", "SHA256": "sha256"}

# Long enough that three hundred packages have an index of several parts of 65,536 bytes.
DESCRIPTION = 1_500


def package(name, version="1.0-1"):
    return uploads.Package(name, version=version, description=DESCRIPTION)


def body_of(reply):
    return reply.partition(b"\r\n\r\n")[2]


def lines_of(release):
    """What a Release lists of its indices: the digest and the size by the list and the path."""
    told, title = {}, ""
    for line in release.decode().splitlines():
        found = re.fullmatch(r" ([0-9a-f]+) (\d+) (\S+)", line)
        if found:
            told[title, found[3]] = (found[1], int(found[2]))
        else:
            title = line.partition(":")[0]
    return told


class LongIndices(Lines):
    def made(self):
        """A new database with an archive, in which what comes to `box` can be copied to `lab`."""
        room = tempfile.TemporaryDirectory()
        self.addCleanup(room.cleanup)
        db, conf = f"{room.name}/box.db", f"{room.name}/box.conf"
        with open(conf, "w", encoding="ascii") as it:
            it.write(uploads.CONFIGURATION)
        self.line(0, "init", db, "--at", "0", conf)
        return db

    def hand_in(self, serving, *packages):
        for it in packages:
            for name, body in uploads.upload_of(it).items():
                self.assertIn(status_of(serving.answer(put_of(name, body))), (200, 201))

    def post(self, serving, path):
        reply = serving.answer(f"POST /{path} HTTP/1.1\r\n\r\n".encode())
        self.assertEqual(status_of(reply), 200, reply)
        return body_of(reply).decode()

    def check(self, serving, suite):
        """Checks the Release of a suite, and answers its Packages."""
        told = lines_of(body_of(serving.answer(get(f"dists/{suite}/Release"))))
        texts = {path: body_of(serving.answer(get(f"dists/{suite}/{path}"))) for path in INDICES}
        wanted = {(title, path): (hashlib.new(name, text).hexdigest(), len(text)) for title, name in DIGESTS.items() for path, text in texts.items()}
        self.assertEqual(told, wanted)
        return texts[INDICES[0]]

    def run_with(self, serving, *packages):
        """Hands in packages and runs the queue, which takes each. Checks the Release, and answers the Packages."""
        self.hand_in(serving, *packages)
        lines = self.post(serving, "queue/run").splitlines()
        self.assertEqual(sorted(lines), sorted(f"accepted {it.name}_{it.version}_amd64.changes" for it in packages))
        return self.check(serving, "box")

    def names_in(self, text):
        return [it.decode() for it in re.findall(rb"^Package: (\S+)$", text, re.MULTILINE)]

    def test_each_release_tells_the_prints_of_its_indices(self):
        first = [package(uploads.name_of(number)) for number in range(300)]
        names = sorted(it.name for it in first)
        with Serving(self.made(), 10_000) as serving:
            text = self.run_with(serving, *first)
            self.assertGreater(len(text), 400_000)
            self.assertEqual(self.names_in(text), names)
            # At the end, in front, and between others.
            for name in ("zz", "aa", "mpkg", "zzz", "bb"):
                names = sorted([*names, name])
                self.assertEqual(self.names_in(self.run_with(serving, package(name))), names)
            # Another version in the front, in the middle, at the end, and of two at once.
            for changed in (["aa"], ["mpkg"], ["zzz"], ["bb", "zz"]):
                text = self.run_with(serving, *(package(name, "2.0-1") for name in changed))
                self.assertEqual(self.names_in(text), names)
            # All of it in another suite, and then other things in each.
            self.assertEqual(len(self.post(serving, "promote/box/lab").splitlines()), len(names))
            self.assertEqual(self.check(serving, "lab"), text)
            for name in ("zzz", "aa", "mpkg"):
                self.post(serving, f"remove/box/{name}")
                names.remove(name)
                self.assertEqual(self.names_in(self.check(serving, "box")), names)
            self.assertEqual(self.check(serving, "lab"), text)
            self.run_with(serving, package("nn"))
            self.assertEqual(self.post(serving, "copy/box/lab/nn"), "1\n")
            self.assertIn("nn", self.names_in(self.check(serving, "lab")))


if __name__ == "__main__":
    main()
