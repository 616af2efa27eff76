"""What files of hundreds of MiB take, beside hashing and copying them, and beside nginx.

    python3 -m bench.larger ARCHIVE FOLDER [--mib 200] [--files 10]

ARCHIVE is the program, FOLDER a new folder to work in. An archive with `MaxFileSize: 1024` is served. For each number of MiB (--mib) it is given a package of
that size. The table has a row for each of these, with the time that passes, and the most memory of the server beyond what it held before:

    the three digests of the file by hashlib, thrice, and a copy of it that is written and synced
    a copy alone, with one sync at its end
    a copy that is written with a sync after each piece of 64 KiB, as many as the archive makes commits
    a PUT of the file to nginx on the same disk, which syncs nothing, and a GET of it from there: if nginx is here, and has its module for PUT
    a PUT that is cut off after three quarters, and the delivery after it, which removes what came
    the PUT of the file, and the same PUT again
    the GET of the file, once its upload was accepted
    an opening of the archive, to its first reply
    the first export of more packages of that size (--files), by the command line, with an opening in it
"""
import hashlib
import os
import pathlib
import shutil
import socket
import subprocess
import sys
import time

from bench import measure, ways
from tests.ports import free_port
from uploads import uploads

PIECE, MEBIBYTE = 1 << 16, 1 << 20
CONFIGURATION = "MaxFileSize: 1024\n" + uploads.CONFIGURATION

# nginx as one process, which takes files below `incoming` and hands them out.
NGINX = """daemon off; master_process off; pid {folder}/pid; error_log {folder}/errors; events {{}}
http {{
access_log off; keepalive_timeout 0; sendfile on; client_body_temp_path {folder}/body; proxy_temp_path {folder}/proxy;
fastcgi_temp_path {folder}/fastcgi; uwsgi_temp_path {folder}/uwsgi; scgi_temp_path {folder}/scgi;
server {{ listen 127.0.0.1:{port}; root {folder}/files; client_max_body_size 1024m; {more} }}
}}
"""


def memory(server, word):
    """A line of what Linux says of the memory of a server, in KiB."""
    with open(f"/proc/{server.process.pid}/status", encoding="ascii") as it:
        return next(int(line.split()[1]) for line in it if line.startswith(f"{word}:"))


def taking(server, work):
    """The seconds that some work with a server takes, and the KiB that the server takes beyond what it held."""
    pathlib.Path(f"/proc/{server.process.pid}/clear_refs").write_text("5")
    held, start = memory(server, "VmRSS"), time.perf_counter()
    work()
    return time.perf_counter() - start, memory(server, "VmHWM") - held


def row(what, seconds, kibibytes=None):
    print(f"| {what} | {measure.figure(seconds)} s | {'' if kibibytes is None else f'{measure.figure(kibibytes / 1024)} MiB'} |", flush=True)


def write_file(path, mebibytes, seed):
    """Writes a file of this size, whose contents no other seed gives."""
    with open(path, "wb") as out:
        for number in range(mebibytes):
            out.write(hashlib.shake_128(f"{seed} {number}".encode()).digest(MEBIBYTE))


def lists_of(paths):
    """The three lists of files at these paths."""
    text = ""
    for field, digest in uploads.LISTS.items():
        text += f"{field}:\n"
        for path in paths:
            with open(path, "rb") as it:
                text += f" {hashlib.file_digest(it, digest).hexdigest()} {path.stat().st_size} {'utils optional ' * (field == 'Files')}{path.name}\n"
    return text


def write_upload(folder, name, mebibytes):
    """Writes the upload of a package whose file has this size: the paths, the .changes last."""
    package = uploads.Package(name)
    stem = f"{name}_{package.version}_amd64"
    deb, control, changes = (folder / f"{stem}.{it}" for it in ("deb", "control", "changes"))
    write_file(deb, mebibytes, name)
    control.write_bytes(uploads.control_of(package))
    changes.write_text(uploads.RECORD.format(date=uploads.DATE, source=name, version=package.version, architectures="amd64") + lists_of([deb, control]))
    return [deb, control, changes]


def put(server, path, size=None):
    """Sends a file, or its first bytes, this number of them, and answers the status, or nothing if it was cut off."""
    whole = path.stat().st_size
    with socket.create_connection(("127.0.0.1", server.port), timeout=600) as it, open(path, "rb") as file:
        it.sendall(f"PUT /incoming/{path.name} HTTP/1.1\r\nHost: localhost\r\nContent-Length: {whole}\r\n\r\n".encode())
        left = whole if size is None else size
        while piece := file.read(min(PIECE, left)):
            it.sendall(piece)
            left -= len(piece)
        return int(it.recv(1 << 16).split()[1]) if size is None else None


def get(server, path, size):
    """Gets a file of the pool, of this size."""
    with socket.create_connection(("127.0.0.1", server.port), timeout=600) as it:
        it.sendall(f"GET /{path} HTTP/1.1\r\nHost: localhost\r\n\r\n".encode())
        count = 0
        while piece := it.recv(1 << 20):
            count += len(piece)
    if count < size:
        measure.stop(f"{count} bytes came of {size}")


def hashed_and_copied(path, folder):
    """Hashes a file thrice, and writes and syncs a copy."""
    for _ in range(3):
        digests = [hashlib.new(it) for it in ("md5", "sha1", "sha256")]
        with open(path, "rb") as file:
            while piece := file.read(PIECE):
                for it in digests:
                    it.update(piece)
    copied(path, folder, False)


def copied(path, folder, each):
    """Writes a copy, with a sync after each piece or one at its end."""
    with open(path, "rb") as file, open(folder / "copy", "wb", buffering=0) as out:
        while piece := file.read(PIECE):
            out.write(piece)
            if each:
                os.fdatasync(out.fileno())
        os.fsync(out.fileno())


def beside_nginx(folder, path, mebibytes):
    """Prints the rows of nginx, which has a folder of its own, for the file at a path."""
    program = shutil.which("nginx", path=f"{os.environ['PATH']}:/usr/sbin:/sbin")
    if not program:
        return
    (folder / "files/incoming").mkdir(parents=True)
    can_put = "http_dav_module" in subprocess.run([program, "-V"], capture_output=True, text=True, check=True).stderr
    port = free_port()
    (folder / "nginx.conf").write_text(NGINX.format(folder=folder.absolute(), port=port, more="dav_methods PUT;" if can_put else ""))
    with measure.Server([program, "-c", str(folder.absolute() / "nginx.conf")], port) as server:
        if can_put:
            row(f"{mebibytes} MiB: a PUT to nginx, which syncs nothing", *taking(server, lambda: ways.check(put(server, path), 201)))
        else:
            os.link(path, folder / "files/incoming" / path.name)
        row(f"{mebibytes} MiB: a GET from nginx", *taking(server, lambda: get(server, f"incoming/{path.name}", path.stat().st_size)))
    shutil.rmtree(folder)


def seconds(work, *words):
    start = time.perf_counter()
    work(*words)
    return time.perf_counter() - start


def measured(program, folder, mebibytes, count):
    """Prints the rows of one size."""
    folder.mkdir()
    (folder / "box.conf").write_text(CONFIGURATION)
    db = str(folder / "box.db")
    measure.line([program, "init", "--db", db, "--at", "0", str(folder / "box.conf")])
    deb, control, changes = write_upload(folder, "large", mebibytes)
    row(f"{mebibytes} MiB: three digests thrice, and a copy", seconds(hashed_and_copied, deb, folder))
    row(f"{mebibytes} MiB: a copy, synced at its end", seconds(copied, deb, folder, False))
    row(f"{mebibytes} MiB: a copy, synced after each 64 KiB", seconds(copied, deb, folder, True))
    beside_nginx(folder / "nginx", deb, mebibytes)
    words = [program, "serve", "--db", db, "--at", "0", "127.0.0.1:{port}", "1000000"]
    small = folder / "small.txt"
    small.write_bytes(b"small")
    with measure.Server(words) as server:
        row(f"{mebibytes} MiB: a PUT that is cut off after three quarters", *taking(server, lambda: put(server, deb, deb.stat().st_size * 3 // 4)))
        row(f"{mebibytes} MiB: the delivery after it", *taking(server, lambda: ways.check(put(server, small), 201)))
        row(f"{mebibytes} MiB: a PUT", *taking(server, lambda: ways.check(put(server, deb), 201)))
        row(f"{mebibytes} MiB: the same PUT again", *taking(server, lambda: ways.check(put(server, deb), 200)))
        for path in (control, changes):
            ways.check(put(server, path), 201)
        ways.check(server.ask("POST", "queue/run"), (200, f"accepted {changes.name}\n".encode()))
        row(f"{mebibytes} MiB: a GET", *taking(server, lambda: get(server, ways.pool_path_of(str(deb)), deb.stat().st_size)))
    start = time.perf_counter()
    with measure.Server(words) as server:
        server.ask("GET", "nothing")
        row(f"{mebibytes} MiB: an opening, to its first reply", time.perf_counter() - start, memory(server, "VmHWM"))
    for number in range(count - 1):
        paths = write_upload(folder, f"more{number}", mebibytes)
        measure.line([program, "put", "--db", db, "--at", "0", *map(str, paths)])
        paths[0].unlink()
    if count > 1:
        measure.line([program, "run", "--db", db, "--at", "0"])
        taken, _ = measure.line([program, "verdicts", "--db", db])
        row(f"{count} of {mebibytes} MiB: an opening", taken.elapsed, taken.peak)
        taken, _ = measure.line([program, "export", "--db", db, str(folder / "www")])
        row(f"{count} of {mebibytes} MiB: the first export, with an opening", taken.elapsed, taken.peak)
        tree = sum(1 for _ in (folder / "www" / "pool").rglob("*.deb"))
        ways.check(tree, count)


def main():
    parser = measure.words(__doc__)
    parser.add_argument("--mib", type=measure.numbers, default=[200])
    parser.add_argument("--files", type=int, default=10)
    asked = parser.parse_args()
    folder = pathlib.Path(asked.folder)
    folder.mkdir()
    print("| What | Time | Memory |\n|---|---|---|")
    for mebibytes in asked.mib:
        measured(asked.archive, folder / str(mebibytes), mebibytes, asked.files)


if __name__ == "__main__":
    sys.exit(main())
