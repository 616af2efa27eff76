"""What soak.py knows of an archive from outside: the answers of deliveries, runs, cleanings and lists, by docs/USING.md and
docs/FAULTS.md and not by the program, and what its indices have to hold.

It does not know which of two uploads was accepted if that depends on what is shown, nor what a copy or a removal found. For these
one archive is compared with another."""
import collections
import hashlib
import re

from tests import soak_files, test_hostile
from tests.program import get, replied
from tests.soak_files import INDICES
from tests.soak_ways import Difference, asked

DAY = 86_400

# The archive's answers to what it takes, by requests, lines and lists.
NEW, AGAIN = b"new ", b"again "

REPLY = re.compile(rb"HTTP/1\.1 (\d{3}) [^\r]*\r\n.*?\r\n\r\n(.*)\Z", re.S)

# The word for a number that a command printed.
DONE = {"copy": "copied", "remove": "removed", "clean": "cleaned"}

# The answers that are not known in full.
ANSWERS = {
    "copy": rb"copied \d+ \S+\n|refused Q[678] .*\n",
    "remove": rb"removed [1-9]\d* \S+\n|refused Q(6|11) .*\n",
    "promote": rb"(\d+ \S+\n|refused Q8 \S+\n)*|refused Q[67] .*\n",
    "show": rb".*",
}


def told(command, answer):
    """An answer as a list has it, whatever the way was."""
    if isinstance(answer, tuple):
        return told_of_line(command, *answer)
    found = REPLY.match(answer)
    return told_of_reply(command, int(found[1]), found[2]) if found else answer


def refused(command, fault):
    words = [command.file.name] if command.file else command.words
    return " ".join(["refused", fault, *words]).encode() + b"\n"


def with_words(command, number):
    """A number that a command printed, as a list has it."""
    if command.word not in DONE:
        return number
    return " ".join([DONE[command.word], number.decode().rstrip("\n"), *command.words[-1:]]).encode() + b"\n"


def told_of_line(command, status, printed, errors):
    fault = errors.decode().removeprefix("archive: ").rstrip("\n")
    return refused(command, fault) if fault and status == 1 and command.word != "show" else with_words(command, printed)


def told_of_reply(command, status, body):
    if status == 422:
        return refused(command, body.decode().rstrip("\n"))
    if command.word == "put":
        name = command.file.name.encode()
        return refused(command, "Q2") if status == 413 else body.rstrip(b"\n") + b" " + name + b"\n"
    return with_words(command, body) if status == 200 else body


class Known:
    """What is known of an archive in which files count for this number of days."""

    def __init__(self, days):
        self.span = days * DAY
        self.arrivals, self.uploads, self.judged, self.verdicts = {}, {}, set(), []
        self.counted = collections.Counter()

    def counts(self, key, moment):
        return key in self.arrivals and moment < self.arrivals[key] + self.span

    def waiting(self, moment):
        """The uploads that count and have no verdict, in their order, each with how many files it lacks."""
        keys = [it for it in self.uploads if it not in self.judged and self.counts(it, moment)]
        for key in sorted(keys, key=order):
            yield key, sum(not self.counts(it, moment) for it in self.uploads[key].listed)

    # ---- what each command is answered, and what it changes

    def put(self, file, moment):
        if file.fault:
            return file.fault
        word = AGAIN if self.counts(file.key, moment) else NEW
        self.arrivals[file.key] = max(moment, self.arrivals.get(file.key, 0))
        if file.name.endswith(".changes"):
            self.uploads[file.key] = file
        return word

    def expect_put(self, command, answer):
        name, wanted = command.file.name.encode(), self.put(command.file, command.moment)
        if isinstance(wanted, bytes):
            return answer == wanted + name + b"\n"
        if wanted.endswith("*"):
            return answer.startswith(f"refused {wanted[:-1]}".encode()) and answer.endswith(b" " + name + b"\n")
        return answer == refused(command, wanted)

    def expect_run(self, command, answer):
        due = [key for key, missing in self.waiting(command.moment) if not missing]
        self.judged.update(due)
        lines = answer.splitlines(keepends=True)
        self.verdicts += lines
        return len(due) == len(lines) and all(map(self.fits, due, lines))

    def fits(self, key, line):
        """Whether a verdict may be that of an upload."""
        verdict = self.uploads[key].verdict
        wanted = f"refused {verdict}" if verdict else "accepted|refused 8|refused 9"
        return re.fullmatch(rf"({wanted}) {re.escape(key[0])}\n".encode(), line) is not None

    def expect_clean(self, command, answer):
        ended = [it for it in self.arrivals if not self.counts(it, command.moment)]
        for key in ended:
            del self.arrivals[key]
            self.uploads.pop(key, None)
        return answer == b"cleaned %d\n" % len(ended)

    def expect_waiting(self, command, answer):
        return answer == b"".join(b"%d %s\n" % (missing, key[0].encode()) for key, missing in self.waiting(command.moment))

    def expect_verdicts(self, command, answer):
        return answer == b"".join(self.verdicts)

    def expect_guard(self, command, answer):
        return self.expect_waiting(command, answer)

    def expect_mark(self, command, answer):
        return answer == refused(command, "Q1")

    def expect_unreadable(self, command, answer):
        return answer == b""

    def expect_cut(self, command, answer):
        return answer in (b"", b"400 Bad Request\n", b"413 Payload Too Large\n")

    def expect_hostile(self, command, answer):
        if command.words[0] != "shorter":
            return answer in (b"", b"new\n", b"again\n") or answer[:4] in (b"400 ", b"404 ", b"413 ", b"431 ", b"501 ")
        word = self.put(soak_files.File(test_hostile.NAME, b"noise"), command.moment)
        return answer == word.strip() + b"\n"

    def expect(self, command, answer):
        """Looks at what an archive answered to its next command."""
        answer = told(command, answer)
        wanted = getattr(self, f"expect_{command.word}", None)
        is_right = wanted(command, answer) if wanted else self.may_be(command, answer)
        if not is_right:
            raise Difference(f"{command}: answered {answer!r:.1000}, which is not what has to come")
        self.count(command, answer)

    def may_be(self, command, answer):
        if command.word != "show" and {"moon"} & {*command.words}:
            return answer == refused(command, "Q6")
        if command.word in ("copy", "promote") and command.words[0] == command.words[1]:
            return answer == refused(command, "Q7")
        return re.fullmatch(ANSWERS[command.word], answer, re.S) is not None

    def count(self, command, answer):
        """Counts an answer by its kind: its first words, without numbers of things and names."""
        for line in answer.splitlines()[:50] if command.word in ("put", "run", "copy", "remove", "promote", "clean") else []:
            found = re.match(rb"refused Q?\d+|[a-z]+( 0\b)?|\d+", line)
            self.counted[f"{command.word}: {found[0].decode() if found else '?'}"] += 1


def order(key):
    """The place of an upload in the order of judging: by its name, SHA-256, SHA-1, MD5 and size."""
    name, (size, md5, sha1, sha256) = key
    return name.encode(), sha256, sha1, md5, size


# ---- what is shown


def body_of(reply, path):
    """The body of a reply to a path at which something stands."""
    found = REPLY.match(reply)
    if not found or found[1] != b"200":
        raise Difference(f"{path}: answered {reply!r:.300}")
    return found[2]


def listed_in(text):
    """The three lists of a Release, each as sizes and digests by the path of an index."""
    lists = {}
    for line in text.decode().splitlines():
        if line in ("MD5Sum:", "SHA1:", "SHA256:"):
            held = lists.setdefault(line[:-1], {})
        elif line.startswith(" ") and lists:
            digest, size, path = line.split()
            held[path] = int(size), digest
    return lists


def expect_release(suite, texts):
    """A Release has the sizes and digests of all indices beside it, as hashlib has them."""
    release = texts[f"dists/{suite}/Release"]
    bodies = {it: texts[f"dists/{suite}/{it}"] for it in INDICES[suite]}
    for title, name in (("MD5Sum", "md5"), ("SHA1", "sha1"), ("SHA256", "sha256")):
        wanted = {path: (len(body), hashlib.new(name, body).hexdigest()) for path, body in bodies.items()}
        if listed_in(release).get(title) != wanted:
            raise Difference(f"Release of {suite}: its {title} is not that of its indices")


def pool_of(text):
    """The files of the pool that an index names, each with its size and SHA-256."""
    found = {}
    for stanza in text.decode().split("\n\n")[:-1]:
        fields = dict(it.split(": ", 1) for it in stanza.split("\n") if re.match(r"[A-Z][\w-]*: ", it))
        if "Filename" in fields:
            found[fields["Filename"]] = int(fields["Size"]), fields["SHA256"]
            continue
        lines = re.search(r"Checksums-Sha256:\n((?: .*\n?)+)", stanza)[1].splitlines()
        for digest, size, name in (it.split() for it in lines):
            found[f"{fields['Directory']}/{name}"] = int(size), digest
    return found


def shown(serving, looks):
    """Everything that an archive shows: each index, and each file of the pool that an index names. Each Release lists its indices,
    and each index its files, as hashlib has them."""
    texts, files = {}, {}
    for suite, indices in INDICES.items():
        for path in (f"dists/{suite}/{it}" for it in ("Release", *indices)):
            texts[path] = body_of(asked(serving, get(path)), path)
        expect_release(suite, texts)
    for path, text in texts.items():
        files |= pool_of(text) if not path.endswith("Release") else {}
    for path, (size, digest) in files.items():
        texts[path] = body_of(asked(serving, get(path)), path)
        if (len(texts[path]), hashlib.sha256(texts[path]).hexdigest()) != (size, digest):
            raise Difference(f"{path}: not the size and the SHA-256 of its index")
    for path in sorted(looks - set(texts)):
        if asked(serving, get(path)) != replied("404 Not Found", b"404 Not Found\n"):
            raise Difference(f"{path}: is there, and in no index")
    return texts


# What is stored, in an order that depends on no number of a row, except the numbers of what came and was judged.
ROWS = {
    "arrivals": "SELECT a.name, a.moment, b.size, b.sha256 FROM arrivals a JOIN bodies b ON b.id = a.body ORDER BY a.id",
    "uploads": "SELECT name, sha256, place, verdict FROM uploads ORDER BY place, name, sha256",
    "wants": "SELECT u.name, u.sha256, w.name, w.sha256, w.here FROM wants w JOIN uploads u ON u.id = w.upload ORDER BY 1, 2, 3",
    "items": "SELECT suite, kind, package, architecture, version, component, source, paragraph FROM items ORDER BY 1, 2, 3, 4",
    "files": "SELECT f.path, b.sha256 FROM files f JOIN bodies b ON b.id = f.body ORDER BY 1",
    "bodies": "SELECT size, sha256 FROM bodies ORDER BY 2",
    "pieces": "SELECT b.sha256, p.number, p.bytes FROM pieces p JOIN bodies b ON b.id = p.body ORDER BY 1, 2",
    "texts": "SELECT path, body FROM texts ORDER BY 1",
    "dates": "SELECT suite, moment FROM dates ORDER BY 1",
}


def expect_arrivals(known, rows):
    """What arrived is what is known to have."""
    wanted = sorted((name, moment, it[0], it[3]) for (name, it), moment in known.arrivals.items())
    if sorted(rows) != wanted:
        raise Difference(f"arrivals: {set(rows) ^ set(wanted)!r:.1000}")
