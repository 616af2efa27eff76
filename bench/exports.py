"""What an export into a folder takes, beside a copy of that folder and reprepro's own export.

    python3 -m bench.exports ARCHIVE FOLDER [--packages 1000,10000] [--rounds 3] [--instructions]

ARCHIVE is the program, FOLDER a new folder to work in. For each number an archive shows so many packages, of the uploads of make_uploads. The
table has, by command lines, each of which opens the archive:

    an opening, by the command that lists what was judged
    the first export, into a new folder; `cp -r` of what it made
    an export with nothing new
    an export after one upload more and its run; `show` of its Packages
    reprepro's own export of the same packages, where it is installed, which writes the indices alone: its pool is there

Of several rounds the least is told. Each round of the first export and of `cp -r` has a new folder, and each of the upload another one.

With --instructions the table has millions of instructions of the program in their place, counted by valgrind: an opening, and what `show` and
exports into a folder that is there take beyond it. One opening differs from the next by more than that, if time is measured.
"""
import os
import re
import shutil

from bench import measure, ways
from uploads import uploads

PACKAGES = "dists/box/main/binary-amd64/Packages"


def exported(way, tree, last):
    """Exports into a folder. The last line that it prints begins so."""
    taken, printed = way.line("export", tree, moment=False)
    ways.check(printed.splitlines()[-1].startswith(last.encode()), True)
    return taken


def least(rounds):
    """The least of what some rounds took."""
    first, *others = rounds
    for other in others:
        first = first.least(other)
    return first


def of_archive(line, count, folder):
    """What is done with an archive of this number of packages, and what it takes."""
    given = uploads.make(f"{folder}/first", count)
    more = uploads.make(f"{folder}/more", line.rounds, first=count)
    way = ways.Lines(line.archive, folder)
    way.make()
    way.hand_in_and_run([path for paths in given for path in paths], count)
    numbers = range(line.rounds)
    tree = f"{folder}/tree-0"
    yield "an opening", least([way.opening() for _ in numbers])
    yield "the first export", least([exported(way, f"{folder}/tree-{number}", f"pool {count} ") for number in numbers])
    yield "`cp -r` of it", least([measure.line(["cp", "-r", tree, f"{folder}/copy-{number}"])[0] for number in numbers])
    yield "an export with nothing new", least([exported(way, tree, f"pool 0 {count} ") for _ in numbers])
    changes, shows = [], []
    for paths in more:
        way.hand_in_and_run(paths, 1)
        changes.append(exported(way, tree, "pool 1 "))
        shows.append(way.line("show", PACKAGES, moment=False)[0])
    yield "an export after one upload more", least(changes)
    yield "`show` of its Packages", least(shows)


def counted(way, word, *words):
    """The instructions of a line, in millions."""
    counting = ["valgrind", "--tool=cachegrind", "--cache-sim=no", "--branch-sim=no", "--cachegrind-out-file=/dev/null"]
    _, printed = measure.line([*counting, way.program, word, "--db", way.db, *words])
    return round(int(re.search(rb"I\s+refs:\s+([\d,]+)", printed)[1].replace(b",", b"")) / 1_000_000)


def of_instructions(line, count, folder):
    """How many instructions an opening has, and `show` and exports beyond it."""
    *given, more = uploads.make(f"{folder}/first", count + 1)
    way, tree = ways.Lines(line.archive, folder), f"{folder}/tree"
    way.make()
    way.hand_in_and_run([path for paths in given for path in paths], count)
    exported(way, tree, f"pool {count} ")
    # The second export reads each file that the first one made.
    exported(way, tree, f"pool 0 {count} ")
    opening = counted(way, "waiting", "--at", "0")
    yield "an opening", opening
    yield "`show` of its Packages", counted(way, "show", PACKAGES) - opening
    yield "an export with nothing new", counted(way, "export", tree) - opening
    way.hand_in_and_run(more, 1)
    opening = counted(way, "waiting", "--at", "0")
    yield "an export after one upload more", counted(way, "export", tree) - opening


def of_reprepro(line, count, folder):
    """What reprepro's export of as many packages takes."""
    given = uploads.make(f"{folder}/peer", count)
    way = ways.Reprepro(None, folder)
    way.make()
    way.hand_in([path for paths in given for path in paths])
    way.run(count)
    yield "reprepro's own export of the same", least([way.line("export")[0] for _ in range(line.rounds)])


def main():
    words = measure.words(__doc__)
    words.add_argument("--packages", type=measure.numbers, default=[1000, 10000])
    words.add_argument("--rounds", type=int, default=3)
    words.add_argument("--instructions", action="store_true")
    line = words.parse_args()
    os.mkdir(line.folder)
    has_peer = bool(shutil.which("reprepro"))
    parts = [of_instructions] if line.instructions else [of_archive] + [of_reprepro] * has_peer
    columns = []
    for count in line.packages:
        folder = f"{line.folder}/{count}-packages"
        os.mkdir(folder)
        columns.append({what: taken for part in parts for what, taken in part(line, count, folder)})
    titles = [f"{count:,} packages" for count in line.packages]
    if line.instructions:
        print(measure.table(["Millions of instructions", *titles], [[what, *(f"{it[what]:,}" for it in columns)] for what in columns[0]]))
        return
    print(measure.heading("" if has_peer else "reprepro is not installed, and is left out."))
    print(measure.table_of(titles, [(what, [it[what] for it in columns]) for what in columns[0]]))


if __name__ == "__main__":
    main()
