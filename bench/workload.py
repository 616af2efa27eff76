"""A workload on the built program, seen from outside, and what reprepro takes for the same where it is installed.

    python3 -m bench.workload ARCHIVE FOLDER [--http] [--packages 1000,10000] [--each 50] [--deliveries 10,1000] [--bodies 25] [--rounds 1]

ARCHIVE is the program, FOLDER a new folder to work in. The uploads are those of make_uploads: a .deb of some 560 bytes, its
sidecar and its .changes. For each number of packages (--packages) all are handed in and run; handed in again, and run; then come
one more that stands last in its index, one that stands first, an upgrade, a run with nothing due, and some more (--each), each
with a run of its own, whose packages stand all over the index. Of these each source is copied to a second suite by itself, and then
all others at once. The archive is opened, and by command lines it gets another configuration, with an architecture more in each
suite; then comes an upload whose .deb has nearly 4 MiB, and that file is looked up. Another archive is filled for the first time
with a run after each 500 uploads. Other archives take files of 4,096 bytes (--deliveries), or uploads of 4 MiB (--bodies), and are
opened.

It prints a table for each number and one for the others, and each cell on standard error as it comes. A table has a column for
each way: by command lines, where each opens the database file; by reprepro; and with --http by `serve`, with a connection for
each file. A cell has the processor time, of the user and of the system, the time that passes, and the most memory, of the program
alone: of a line from its start to its end, of `serve` from before a request to after its reply, its memory since it was started.
In each round (--rounds) each way has a new folder, and a cell has the least of all rounds. By command lines files are handed in and
run by one list (`batch`), so its parts have no cell. What a delivery of 4,096 bytes takes is seen by `serve` alone. reprepro is
handed files by `cp` to its folder, whose cell says what `cp` takes on this machine, and does `processincoming`, with `-s`.
"""
import os
import shutil
import sys

from bench import measure, ways
from uploads import uploads

# The number of uploads after which a long list has a run, so that few uploads wait at a time.
BETWEEN_RUNS = 500


def mean(parts):
    """The mean of what these took, if the way has such a call."""
    parts = [part for part in parts if part]
    return measure.mean(parts) if parts else None


def in_parts(way, paths, count):
    """Hands files in and runs the queue, in which this number of uploads is then due. Answers what each part took, if it is done by
    itself, and what both took."""
    if way.takes_lists:
        return None, None, way.hand_in_and_run(paths, count)
    handed, run = way.hand_in(paths), way.run(count)
    return handed, run, handed + run


def together(way, paths, count):
    """Hands files in and runs the queue. Answers what both took."""
    return in_parts(way, paths, count)[-1]


def again(way, paths):
    """Hands in and runs files that were handed in and run before, as `in_parts` does."""
    if way.takes_lists:
        return way.hand_in_and_run(paths, 0, "again")
    return way.hand_in(paths, "again") + way.run(0)


def workload(way, made):
    """What is done with this number of packages, and what it takes."""
    first, more, large = made["first"], made["more"], made["large"]
    path, size = ways.pool_path_of(large[0]), os.path.getsize(large[0])
    files = [path for paths in first for path in paths]
    yield "an archive made", way.make()
    handed, run, both = in_parts(way, files, len(first))
    yield f"{len(files):,} files handed in", handed
    yield "their run", run
    yield "all handed in, and one run", both
    yield "all handed in again, and a run", again(way, files)
    yield "one more upload, last in its index, and its run", together(way, made["extra"], 1)
    yield "one more upload, first in its index, and its run", together(way, made["front"], 1)
    yield "an upgrade, second in its index, and its run", together(way, made["upgrade"], 1)
    yield "a run with nothing due", way.run(0)
    yield f"each handed in and run by itself, one of {len(more)}", mean([together(way, paths, 1) for paths in more])
    alone = [way.copy(ways.source_of(paths)) for paths in more]
    yield f"a source copied to a second suite, one of {len(more)}", mean(alone)
    sources = [ways.source_of(paths) for paths in [*first, made["extra"], made["front"]]]
    yield f"all others copied there, {len(sources):,} sources", way.copy_all(sources)
    yield "an opening", way.opening()
    yield "another configuration, an architecture more in each suite", way.configure()
    way.hand_in(large)
    way.run(1)
    yield "a file of 4 MiB looked up", mean([way.look_up(path, size) for _ in range(10)])
    yield "a request of what is not there, one of 100", mean([way.idle() for _ in range(100)])


def first_fill(way, made):
    """What it takes to fill a new archive, with a run after each 500 uploads."""
    first = made["first"]
    groups = [first[at:at + BETWEEN_RUNS] for at in range(0, len(first), BETWEEN_RUNS)]
    way.make()
    filled = way.fill(groups) if way.takes_lists else measure.total([together(way, [path for paths in it for path in paths], len(it)) for it in groups])
    yield f"all handed in, with a run after each {BETWEEN_RUNS} uploads", filled


def deliveries(way, files):
    """What one delivery of the last tenth takes, without an opening, and then an opening."""
    last = -(-len(files) // 10)
    way.make()
    way.hand_in(files[:-last])
    taken = way.hand_in(files[-last:])
    one = None if way.opens_each_time else taken / last
    yield f"a file of 4,096 bytes delivered, one of the last tenth of {len(files):,}", one
    yield f"an opening, with {len(files):,} files of 4,096 bytes", way.opening()


def bodies(way, given):
    """What an opening takes if there are this number of bodies of 4 MiB."""
    way.make()
    way.hand_in([path for paths in given for path in paths])
    way.run(len(given))
    yield f"an opening, with {len(given):,} files of 4 MiB", way.opening()


def packages_made(line, count):
    """The uploads of this number of packages, and those beside them."""
    folder = f"{line.folder}/{count}-packages"
    upgrade = uploads.Package(uploads.name_of(0), version="2.0-1")
    beside = {"extra": uploads.Package("zextra"), "front": uploads.Package("aafront"), "upgrade": upgrade, "large": uploads.LARGE}
    return {
        "first": uploads.make(f"{folder}/first", count),
        "more": uploads.make(f"{folder}/more", line.each, first=count),
        **{name: uploads.write(f"{folder}/{name}", uploads.upload_of(package)) for name, package in beside.items()},
    }


def task_of(work, made):
    return lambda way: work(way, made)


def tables(line):
    """The title of each table, whether reprepro has a column in it, and what a way is put through, each in a new archive."""
    for count in line.packages:
        made = packages_made(line, count)
        yield f"{count:,} packages", True, [task_of(workload, made), task_of(first_fill, made)]
    files = [uploads.write(f"{line.folder}/{count}-files", uploads.small(count)) for count in line.deliveries]
    large = [uploads.make(f"{line.folder}/{count}-bodies", count, pad=uploads.LARGE.pad) for count in line.bodies]
    yield "Files and bodies", False, [task_of(deliveries, it) for it in files] + [task_of(bodies, it) for it in large]


def rows_of(kind, line, tasks):
    """What a way takes for each thing of these tasks."""
    for task in tasks:
        shutil.rmtree(f"{line.folder}/archives", ignore_errors=True)
        os.mkdir(f"{line.folder}/archives")
        way = kind(line.archive, f"{line.folder}/archives")
        try:
            yield from task(way)
        finally:
            way.close()


def measured(line, kinds, tasks):
    """What each way took for each thing, the least of all rounds."""
    least = {}
    for _ in range(line.rounds):
        for kind in kinds:
            for what, taken in rows_of(kind, line, tasks):
                print(f"{kind.title}: {what}: {measure.cell(taken)}", file=sys.stderr, flush=True)
                row = least.setdefault(what, {})
                if taken:
                    row[kind] = taken.least(row[kind]) if kind in row else taken
    return least


def main():
    words = measure.words(__doc__)
    words.add_argument("--http", action="store_true")
    words.add_argument("--packages", type=measure.numbers, default=[1000, 10000])
    words.add_argument("--each", type=int, default=50)
    words.add_argument("--deliveries", type=measure.numbers, default=[10, 1000])
    words.add_argument("--bodies", type=measure.numbers, default=[25])
    words.add_argument("--rounds", type=int, default=1)
    line = words.parse_args()
    os.mkdir(line.folder)
    all_kinds, said = ways.all_ways(line.http)
    print(measure.heading(said))
    for title, with_reprepro, tasks in tables(line):
        kinds = [kind for kind in all_kinds if with_reprepro or kind is not ways.Reprepro]
        rows = [(what, [row.get(kind) for kind in kinds]) for what, row in measured(line, kinds, tasks).items()]
        if rows:
            print(f"{title}:\n\n{measure.table_of([kind.title for kind in kinds], rows)}\n", flush=True)


if __name__ == "__main__":
    main()
