"""What a cleaning takes, beside an opening of the same archive.

    python3 -m bench.cleaning ARCHIVE FOLDER [--files 10000] [--end 1000]

ARCHIVE is the program, FOLDER a new folder to work in. An archive with `KeepDays: 1` is given so many files (--files), each of its own 4,096 bytes. The
first of them (--end) come at moment 0 and the others a second later, so that a cleaning at 86400 takes the first alone. The table has:

    an opening of the archive with all files, by the command that lists what was judged
    the cleaning, by `serve` over the open archive, and one behind it that takes nothing
    the same two by command lines, each of which opens the archive first
    an opening behind the cleaning
"""
import hashlib
import os
import pathlib

from bench import measure, ways


def contents_of(number):
    """4,096 bytes that no other file has."""
    return (hashlib.sha256(str(number).encode()).hexdigest() * 64).encode()


def files_in(folder, numbers):
    """Files of their own contents."""
    os.makedirs(folder)
    paths = [f"{folder}/file-{number}" for number in numbers]
    for number, path in zip(numbers, paths):
        pathlib.Path(path).write_bytes(contents_of(number))
    return paths


def given(way, paths, moment):
    """Delivers files at a moment."""
    for first in range(0, len(paths), ways.MOST_WORDS):
        some = paths[first:first + ways.MOST_WORDS]
        _, printed = measure.line([way.program, "put", "--db", way.db, "--at", str(moment), *some])
        ways.check(printed.count(b"new "), len(some))


def made(line, folder, first, others):
    """An archive with all these files, by command lines."""
    os.mkdir(folder)
    way = ways.Lines(line.archive, folder)
    conf = pathlib.Path(way.conf)
    conf.write_text(conf.read_text().replace("Codename: ", "KeepDays: 1\nCodename: ", 1))
    way.make()
    given(way, first, 0)
    given(way, others, 1)
    return way


def cleaned(way, count):
    """Cleans by a command line, and takes this number of files."""
    taken, printed = measure.line([way.program, "clean", "--db", way.db, "--at", "86400"])
    ways.check(int(printed), count)
    return taken


def served(line, way, count):
    """Cleans twice over an archive that is open: first this number of files, then none."""
    words = [line.archive, "serve", "--db", way.db, "--at", "86400", "127.0.0.1:{port}", "1000000"]
    with measure.Server(words) as server:
        # a connection comes about before the archive is open, and is answered after that
        ways.check(server.ask("GET", "verdicts"), (200, b""))
        for wanted in count, 0:
            with server.taking() as taken:
                status, printed = server.ask("POST", "queue/clean")
            ways.check((status, int(printed)), (200, wanted))
            yield taken[0]


def rows(line):
    first = files_in(f"{line.folder}/first", range(line.end))
    others = files_in(f"{line.folder}/others", range(line.end, line.files))
    way = made(line, f"{line.folder}/by-http", first, others)
    yield "an opening", way.opening()
    full, empty = served(line, way, line.end)
    yield f"a cleaning of {line.end:,}, the archive open", full
    yield "a cleaning of nothing, the archive open", empty
    yield "an opening behind it", way.opening()
    way = made(line, f"{line.folder}/by-lines", first, others)
    yield f"a cleaning of {line.end:,}, by a command line", cleaned(way, line.end)
    yield "a cleaning of nothing, by a command line", cleaned(way, 0)


def main():
    words = measure.words(__doc__)
    words.add_argument("--files", type=int, default=10_000)
    words.add_argument("--end", type=int, default=1_000)
    line = words.parse_args()
    os.mkdir(line.folder)
    told = [(what, [taken]) for what, taken in rows(line)]
    print(measure.heading())
    print(measure.table_of([f"{line.files:,} files of 4,096 bytes"], told))


if __name__ == "__main__":
    main()
