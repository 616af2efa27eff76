"""What a run takes by the number of packages that are shown, seen from outside.

    python3 -m bench.shown ARCHIVE FOLDER [--shown 100,1000,10000] [--each 20] [--description 1000]

ARCHIVE is the program, FOLDER a new folder to work in. For each number an archive is made that shows so many packages, and
`serve` answers over it. So many uploads (--each) are handed in, each with a run of its own, and then as many, with one run.
The table has, of `serve` alone:

    an upload handed in, of three files; its run alone; a run with nothing due: the mean of them
    an upload more in a run: what the run of many takes more than that of one, for each more. It is judged, admitted and
        written, and its lines come to the texts; the texts themselves are made once in both
    a byte of Packages in a run of one upload: what such a run takes more in an archive whose packages have descriptions of so
        many bytes more (--description), for each byte that Packages has more. It is read, rendered, digested and written
"""
import os

from bench import measure, ways
from uploads import uploads

PACKAGES = "dists/box/main/binary-amd64/Packages"


def shown(program, folder, count, description):
    """An archive by HTTP that shows this number of packages."""
    os.mkdir(folder)
    lines = ways.Lines(program, folder)
    given = uploads.make(f"{folder}/first", count, description=description)
    lines.make()
    lines.hand_in([path for paths in given for path in paths])
    lines.run(count)
    way = ways.Served(program, folder)
    way.serve()
    return way


def alone(way, given):
    """What it takes to hand an upload in, and to run it, each by itself."""
    handed, run = [], []
    for paths in given:
        handed.append(way.hand_in(paths))
        run.append(way.run(1))
    return measure.mean(handed), measure.mean(run)


def together(way, given):
    """What it takes to run uploads that were all handed in."""
    way.hand_in([path for paths in given for path in paths])
    return way.run(len(given))


def packages_bytes(way):
    return len(way.server.ask("GET", PACKAGES)[1])


def by_byte(line, count, short, more):
    """What a byte more of Packages takes in a run of one upload, in ns of processor time, beside such a run and this number of bytes."""
    run, size = short
    way = shown(line.archive, f"{line.folder}/long-{count}", count, line.description)
    try:
        longer = alone(way, more)[1].processor - run.processor
        return f"{measure.figure(longer * 1e9 / (packages_bytes(way) - size))} ns"
    finally:
        way.close()


def column(line, count):
    """The column of an archive that shows this number of packages."""
    more = uploads.make(f"{line.folder}/more-{count}", 2 * line.each, first=count)
    way = shown(line.archive, f"{line.folder}/short-{count}", count, 0)
    try:
        handed, run = alone(way, more[:line.each])
        size = packages_bytes(way)
        many = together(way, more[line.each:])
        nothing = measure.mean([way.run(0) for _ in range(line.each)])
    finally:
        way.close()
    return {
        "an upload handed in": measure.cell(handed),
        "its run alone": measure.cell(run),
        "a run with nothing due": measure.cell(nothing),
        "an upload more in a run": measure.cell((many - run) / (line.each - 1)),
        "Packages": f"{size:,} bytes",
        "a byte of Packages in a run": by_byte(line, count, (run, size), more[:line.each]),
    }


def main():
    words = measure.words(__doc__)
    words.add_argument("--shown", type=measure.numbers, default=[100, 1000, 10000])
    words.add_argument("--each", type=int, default=20)
    words.add_argument("--description", type=int, default=1000)
    line = words.parse_args()
    os.mkdir(line.folder)
    columns = [column(line, count) for count in line.shown]
    print(measure.heading())
    rows = [[what, *(it[what] for it in columns)] for what in columns[0]]
    print(measure.table(["What"] + [f"{count:,} shown" for count in line.shown], rows))


if __name__ == "__main__":
    main()
