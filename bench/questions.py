"""What questions to a served archive take, seen from outside.

    python3 -m bench.questions ARCHIVE FOLDER [--packages 10000] [--waiting 10000] [--each 5]

ARCHIVE is the program, FOLDER a new folder to work in. The first table is of an archive in which this number of uploads was accepted
(--packages), each of a package that its suite shows; the second is of one in which this number of uploads waits (--waiting), each for two
files. Both are made by one list of commands, and then `serve` answers over them. Each path is asked for several times (--each).

A cell has the processor time of `serve` and the time that passes until the whole reply has come, the least of all times, and the memory: by
how much the most that `serve` holds meanwhile exceeds what it held before, the most of all times. What it held at most before is forgotten
first (/proc/PID/clear_refs).
"""
import os
import pathlib

from bench import measure, ways
from uploads import uploads

SHOWN = ["suites/box/index.html", "uploads.html", "", "metrics", "list", "list/box", "json/list/box", "verdicts", "json/verdicts", "why/{name}", "why"]
WAITING = ["queue", "why", "metrics", "uploads.html", "json/queue", "json/why", "why/{name}"]


def asked(server, path):
    """What it takes to ask for a path, with the memory that it takes more, and the size of the reply."""
    pathlib.Path(f"/proc/{server.process.pid}/clear_refs").write_text("5", encoding="ascii")
    held = server.so_far().peak
    with server.taking() as taken:
        status, body = server.ask("GET", path)
    ways.check(status, 200)
    return measure.Taken(taken[0].processor, taken[0].elapsed, taken[0].peak - held), len(body)


def row_of(server, path, each):
    """What it takes to ask for a path, this number of times."""
    all_taken, sizes = zip(*[asked(server, path) for _ in range(each)])
    least = all_taken[0]
    for other in all_taken[1:]:
        least = measure.Taken(min(least.processor, other.processor), min(least.elapsed, other.elapsed), max(least.peak, other.peak))
    return [f"`GET /{path}`", f"{sizes[0]:,} bytes", measure.cell(least)]


def table_of(line, folder, paths, given, judged):
    """The table of an archive that was handed these files, of which a run accepts this number of uploads. {name} is the name of an upload."""
    os.mkdir(folder)
    lines = ways.Lines(line.archive, folder)
    lines.make()
    lines.hand_in_and_run(given, judged)
    way = ways.Served(line.archive, folder)
    way.serve()
    try:
        way.idle()  # whose reply comes once the archive is open
        name = next(os.path.basename(it) for it in given if it.endswith(".changes"))
        rows = [row_of(way.server, it.format(name=name), line.each) for it in paths]
        return measure.table(["What", "The reply", "What it takes"], rows)
    finally:
        way.close()


def main():
    words = measure.words(__doc__)
    words.add_argument("--packages", type=int, default=10000)
    words.add_argument("--waiting", type=int, default=10000)
    words.add_argument("--each", type=int, default=5)
    line = words.parse_args()
    os.mkdir(line.folder)
    print(measure.heading("The memory is what a question takes beyond what was held before."))
    given = [path for paths in uploads.make(f"{line.folder}/shown-uploads", line.packages) for path in paths]
    print(f"{line.packages:,} packages and as many verdicts:\n\n{table_of(line, f'{line.folder}/shown', SHOWN, given, line.packages)}\n", flush=True)
    given = [paths[-1] for paths in uploads.make(f"{line.folder}/waiting-uploads", line.waiting)]
    print(f"{line.waiting:,} uploads that wait:\n\n{table_of(line, f'{line.folder}/waiting', WAITING, given, 0)}\n", flush=True)


if __name__ == "__main__":
    main()
