"""What `archive serve` takes over loopback, beside Python's http.server.

    python3 -m bench.http ARCHIVE FOLDER

ARCHIVE is the program, FOLDER a new folder to work in. It makes an archive that shows one package, whose file has nearly 4 MiB.
It prints the time that passes in one GET of that file over loopback (the middle of 21), the same of `python3 -m http.server`,
and that of 1,000 GETs of Release, one after the other; and the most memory that the server held behind the first and behind
all of them."""
import os
import statistics
import sys

from bench import measure, ways
from uploads import uploads


def milliseconds(server, path, body):
    """The time that passes in a GET of a body."""
    times = []
    for _ in range(21):
        with server.taking() as taken:
            reply = server.ask("GET", path)
        ways.check(reply, (200, body))
        times.append(taken[0].elapsed * 1000)
    return f"{measure.figure(statistics.median(times))} ms"


def releases(server, count):
    """The time of this number of GETs of a Release."""
    with server.taking() as taken:
        for _ in range(count):
            ways.check(server.ask("GET", "dists/box/Release")[0], 200)
    return f"{measure.figure(taken[0].elapsed)} s"


def archive(program, folder):
    """An archive by HTTP that shows the package, and the paths of the upload's files."""
    paths = uploads.write(f"{folder}/large", uploads.upload_of(uploads.LARGE))
    way = ways.Served(program, folder)
    way.make()
    way.hand_in(paths)
    way.run(1)
    way.opening()
    return way, paths


def memory(server):
    return f"{server.so_far().peak:,} KiB"


def main(words):
    if len(words) != 2:
        sys.exit(__doc__)
    program, folder = words
    os.mkdir(folder)
    way, paths = archive(program, folder)
    with open(paths[0], "rb") as it:
        deb = it.read()
    try:
        print("a GET of 4 MiB, archive:", milliseconds(way.server, ways.pool_path_of(paths[0]), deb))
        print("most memory behind them:", memory(way.server))
        print("1,000 GETs of Release, archive:", releases(way.server, 1000))
        print("most memory behind all:", memory(way.server))
    finally:
        way.close()
    with measure.Server([sys.executable, "-m", "http.server", "{port}", "--bind", "127.0.0.1", "--directory", folder]) as other:
        print("a GET of 4 MiB, http.server:", milliseconds(other, f"large/{os.path.basename(paths[0])}", deb))


if __name__ == "__main__":
    main(sys.argv[1:])
