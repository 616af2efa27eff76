"""What `archive try` takes for small and large files, and for texts that are made to be slow to read.

    python3 -m bench.texts ARCHIVE FOLDER [--rounds 10]

ARCHIVE is the program, FOLDER a new folder to work in. `try` keeps its archive in memory: it delivers the files that it is given,
runs the queue once and prints an index. So the lines with uploads tell what these take without a database. The texts are
.changes of 1 MiB, the most that one may have, and each is refused. Of all rounds the least is told, processor time first.
"""
import itertools
import os
import random

from bench import measure
from uploads import uploads

MOST = 1_048_576


def fields():
    """Lines of as many different fields as a text may have. Capital letters make no other name."""
    letters = [chr(code) for code in range(0x21, 0x7F) if chr(code) not in ":ABCDEFGHIJKLMNOPQRSTUVWXYZ"]
    names = ("".join(name) for name in itertools.product(letters, repeat=3) if name[0] not in "#-")
    return [f"{name}:\n" for name in itertools.islice(names, MOST // 5)]


def listed(count):
    """A .changes with three lists of this number of different files."""
    bodies = {f"f{number:05}": number.to_bytes(4, "little") for number in range(count)}
    return uploads.changes_of("hostile", "1.0-1", bodies).decode()


def hostile():
    """Texts that are refused, by what they are."""
    some = fields()
    line = f" {'greets ' * 5}all\n"
    lines = MOST // len(line) - 1
    return {
        f"a .changes of {len(some):,} different fields, in order": "".join(some),
        "the same, shuffled": "".join(random.Random(0).sample(some, len(some))),
        f"a .changes of {MOST // 4:,} paragraphs of one field": "a:\n\n" * (MOST // 4),
        f"a .changes of {lines:,} lines of one field": f"a:\n{line * lines}",
        "a .changes of three lists of 5,500 different files": listed(5500),
    }


def least(words, status, rounds):
    taken = measure.line(words, status=status)[0]
    for _ in range(rounds - 1):
        taken = taken.least(measure.line(words, status=status)[0])
    return taken


def rows(line):
    """What is measured: the words, and the status that they end with."""
    folder = line.folder
    small = uploads.write(f"{folder}/small", uploads.upload_of(uploads.Package("small")))
    large = uploads.write(f"{folder}/large", uploads.upload_of(uploads.LARGE))
    yield "an upload of some 1,900 bytes", [line.archive, "try", *small], 0
    yield "an upload of nearly 4 MiB", [line.archive, "try", *large], 0
    for tool in ("md5sum", "sha1sum", "sha256sum"):
        yield f"its package file by {tool}", [tool, large[0]], 0
    for count in (100, 1000):
        many = uploads.make(f"{folder}/many-{count}", count)
        yield f"{count:,} uploads, with one run", [line.archive, "try", *(path for paths in many for path in paths)], 0
    for number, (what, text) in enumerate(hostile().items()):
        [path] = uploads.write(f"{folder}/hostile-{number}", {"hostile_1.0-1_amd64.changes": text.encode()})
        yield what, [line.archive, "try", path], 1


def main():
    words = measure.words(__doc__)
    words.add_argument("--rounds", type=int, default=10)
    line = words.parse_args()
    os.mkdir(line.folder)
    taken = [(what, [least(given, status, line.rounds)]) for what, given, status in rows(line)]
    print(measure.heading())
    print(measure.table_of(["taken"], taken))


if __name__ == "__main__":
    main()
