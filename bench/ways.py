"""Ways to an archive, each with the same calls: the program by its command lines, the program by HTTP, and reprepro.

A call answers what it took, or nothing if the way has no such call. Each call looks at what is printed or replied, and
ends the process if that is wrong, so that no refusal is measured.
"""
import contextlib
import os
import pathlib
import re
import shutil
import time

from bench import measure
from uploads import uploads

# The number of files that one `put` is given. The system takes only a limited number of bytes of words.
MOST_WORDS = 10_000


def source_of(paths):
    """The source of an upload with files at these paths."""
    return os.path.basename(paths[0]).partition("_")[0]


def pool_path_of(path):
    """Where the pool has the package file at a path."""
    name, source = os.path.basename(path), source_of([path])
    return f"pool/main/{source[0]}/{source}/{name}"


def check(found, wanted):
    if found != wanted:
        measure.stop(f"what came is {found!r:.300}, and not {wanted!r:.300}")


def put_lines(paths, word):
    """What is printed for files that were all handed in, with this word for each."""
    return "".join(f"{word} {os.path.basename(path)}\n" for path in paths).encode()


def check_promoted(lines, sources):
    """Checks that each of these sources, perhaps among others, was copied."""
    check({f"1 {source}".encode() for source in sources} - set(lines.splitlines()), set())


def check_run(lines, count):
    """Checks that a run accepted this number of uploads, and judged no more."""
    check([line.split()[0] for line in lines.decode().splitlines()], ["accepted"] * count)


class Lines:
    """The archive by command lines, each of which opens the database file."""

    title = "archive, by command lines"
    opens_each_time = True
    takes_lists = True

    def __init__(self, program, folder):
        self.program, self.db, self.conf = program, f"{folder}/box.db", f"{folder}/box.conf"
        pathlib.Path(self.conf).write_text(uploads.CONFIGURATION)

    def line(self, word, *words, moment=True):
        return measure.line([self.program, word, "--db", self.db, *["--at", "0"] * moment, *words])

    def make(self):
        """Makes the archive."""
        return self.line("init", self.conf)[0]

    def hand_in(self, paths, word="new"):
        """Delivers files, each of which the archive calls by this word."""
        parts = []
        for first in range(0, len(paths), MOST_WORDS):
            some = paths[first:first + MOST_WORDS]
            taken, printed = self.line("put", *some)
            check(printed, put_lines(some, word))
            parts.append(taken)
        return measure.total(parts)

    def hand_in_and_run(self, paths, count, word="new"):
        """Delivers files and runs the queue, in which this number of uploads is then due, by one list of commands."""
        pathlib.Path(f"{self.db}.list").write_text("".join(f"put {path}\n" for path in paths) + "run\n")
        taken, printed = self.line("batch", f"{self.db}.list")
        delivered = put_lines(paths, word)
        check(printed[:len(delivered)], delivered)
        check_run(printed[len(delivered):], count)
        return taken

    def fill(self, groups):
        """Delivers each group of uploads and runs the queue after it, by one list of commands."""
        text, wanted = "", b""
        for group in groups:
            paths = [path for it in group for path in it]
            text += "".join(f"put {path}\n" for path in paths) + "run\n"
            wanted += put_lines(paths, "new") + b"".join(b"accepted\n" for _ in group)
        pathlib.Path(f"{self.db}.list").write_text(text)
        taken, printed = self.line("batch", f"{self.db}.list")
        check(re.sub(rb"(?m)^(accepted) .*$", rb"\1", printed), wanted)
        return taken

    def run(self, count):
        """Runs the queue, in which this number of uploads is due."""
        taken, printed = self.line("run")
        check_run(printed, count)
        return taken

    def copy(self, source):
        """Copies a source to the second suite."""
        taken, printed = self.line("copy", "box", "lab", source)
        check(int(printed), 1)
        return taken

    def copy_all(self, sources):
        """Copies all that the first suite shows, these sources among it, in one change."""
        taken, printed = self.line("promote", "box", "lab")
        check_promoted(printed, sources)
        return taken

    def opening(self):
        """Opens the archive, and lists what was judged."""
        return self.line("verdicts", moment=False)[0]

    def configure(self):
        """Gives the archive another configuration, in which each suite has an architecture more."""
        pathlib.Path(f"{self.db}.conf").write_text(uploads.CONFIGURATION.replace("amd64", "amd64 arm64"))
        return self.line("configure", f"{self.db}.conf")[0]

    def look_up(self, path, size):
        """Looks up a file of the pool, which has this number of bytes."""
        taken, printed = self.line("show", path, moment=False)
        check(len(printed), size)
        return taken

    def idle(self):
        """Asks for what is not there."""

    def close(self):
        """Ends it."""


class Served(Lines):
    """The archive by HTTP over loopback, with a connection for each request."""

    title = "archive, by HTTP"
    opens_each_time = False
    takes_lists = False

    def __init__(self, program, folder):
        super().__init__(program, folder)
        self.ending = contextlib.ExitStack()

    def serve(self):
        words = [self.program, "serve", "--db", self.db, "--at", "0", "127.0.0.1:{port}", "1000000"]
        self.server = self.ending.enter_context(measure.Server(words))

    def make(self):
        super().make()
        self.serve()

    def hand_in(self, paths, word="new"):
        status = 201 if word == "new" else 200
        with self.server.taking() as taken:
            for path in paths:
                body = pathlib.Path(path).read_bytes()
                check(self.server.ask("PUT", f"incoming/{os.path.basename(path)}", body), (status, f"{word}\n".encode()))
        return taken[0]

    def run(self, count):
        with self.server.taking() as taken:
            status, lines = self.server.ask("POST", "queue/run")
        check(status, 200)
        check_run(lines, count)
        return taken[0]

    def copy(self, source):
        with self.server.taking() as taken:
            check(self.server.ask("POST", f"copy/box/lab/{source}"), (200, b"1\n"))
        return taken[0]

    def copy_all(self, sources):
        with self.server.taking() as taken:
            status, lines = self.server.ask("POST", "promote/box/lab")
        check(status, 200)
        check_promoted(lines, sources)
        return taken[0]

    def opening(self):
        """Starts the server anew, up to its first reply. The log beside the file was copied into it before."""
        self.close()
        super().opening()
        start = time.perf_counter()
        self.serve()
        self.server.ask("GET", "nothing")
        return self.server.so_far() - measure.Taken(0, start, 0)

    def configure(self):
        """No request asks for it."""

    def look_up(self, path, size):
        with self.server.taking() as taken:
            status, found = self.server.ask("GET", path)
        check((status, len(found)), (200, size))
        return taken[0]

    def idle(self):
        with self.server.taking() as taken:
            check(self.server.ask("GET", "nothing")[0], 404)
        return taken[0]

    def close(self):
        self.ending.close()


class Reprepro:
    """The way of `reprepro processincoming`, with the same files and the same indices, none of them compressed."""

    title = "reprepro"
    takes_lists = False
    INDICES = "DebIndices: Packages Release .\nDscIndices: Sources Release .\n"
    INCOMING = "Name: default\nIncomingDir: incoming\nTempDir: tmp\nAllow: box\nPermit: unused_files\nCleanup: unused_files\n"

    def __init__(self, _, folder):
        self.base = pathlib.Path(folder, "reprepro")

    def line(self, *words):
        return measure.line(["reprepro", "-s", "-b", str(self.base), *words])

    def make(self):
        for name in ("conf", "incoming", "tmp"):
            (self.base / name).mkdir(parents=True)
        text = uploads.CONFIGURATION.replace("Components: main\n", f"Components: main\n{self.INDICES}")
        (self.base / "conf/distributions").write_text(text)
        (self.base / "conf/incoming").write_text(self.INCOMING)

    def hand_in(self, paths, word="new"):
        """Files are handed in by `cp` to a folder."""
        parts = []
        for first in range(0, len(paths), MOST_WORDS):
            parts.append(measure.line(["cp", "-t", str(self.base / "incoming"), *paths[first:first + MOST_WORDS]])[0])
        return measure.total(parts)

    def run(self, count):
        taken, _ = self.line("processincoming", "default")
        check(os.listdir(self.base / "incoming"), [])
        return taken

    def copy(self, source):
        return self.line("copysrc", "lab", "box", source)[0]

    def copy_all(self, sources):
        return self.line("copy", "lab", "box", *sources)[0]

    def opening(self):
        pass

    def configure(self):
        pass

    def look_up(self, path, size):
        pass

    def idle(self):
        pass

    def close(self):
        pass


def all_ways(http):
    """The ways that there are, and what is said of one that is left out."""
    ways, said = [Lines], ""
    if shutil.which("reprepro"):
        ways.append(Reprepro)
    else:
        said = "reprepro is not installed, and is left out."
    return ways + [Served] * http, said
