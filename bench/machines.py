"""Many machines at once: what `archive serve` answers to wrk over loopback, beside Python's http.server and nginx over an export.

    python3 -m bench.machines ARCHIVE FOLDER [--packages 5000] [--clients 10,100] [--seconds 10]

ARCHIVE is the program, FOLDER a new folder to work in. The archive shows these packages (--packages), and one more whose file has 200 KB. It is
exported once, and http.server and nginx hand out that tree. wrk, of the Debian package of that name, asks each of them for three files: Release,
Packages, and the file of 200 KB, with a new connection for each request, as `serve` has it. There is a table for each number of clients
(--clients): replies a second, and the time within which 99 of 100 replies came. Then comes the most memory that `serve` held.
A peer that is not installed is left out.
"""
import contextlib
import os
import pathlib
import re
import shutil
import subprocess
import sys

from bench import measure, ways
from tests.ports import free_port
from uploads import uploads

NGINX = """{user}daemon off; pid {folder}/pid; error_log {folder}/errors; events {{}}
http {{
access_log off; sendfile on; client_body_temp_path {folder}/body; proxy_temp_path {folder}/proxy;
fastcgi_temp_path {folder}/fastcgi; uwsgi_temp_path {folder}/uwsgi; scgi_temp_path {folder}/scgi;
server {{ listen 127.0.0.1:{port}; root {tree}; }}
}}
"""
LARGER = uploads.Package("larger", pad=200_000)
RELEASE, PACKAGES = "dists/box/Release", "dists/box/main/binary-amd64/Packages"


def filled(program, folder, count):
    """An archive by HTTP that shows this number of packages and the larger one, and the path of its file."""
    way = ways.Served(program, folder)
    way.make()
    for first in range(0, count, 500):
        some = uploads.make(f"{folder}/uploads{first}", min(500, count - first), first=first)
        way.hand_in([path for paths in some for path in paths])
        way.run(len(some))
    paths = uploads.write(f"{folder}/larger", uploads.upload_of(LARGER))
    way.hand_in(paths)
    way.run(1)
    return way, ways.pool_path_of(paths[0])


def asked(port, path, clients, seconds):
    """What wrk says of requests for a file: replies a second, and the time within which 99 of 100 came."""
    line = ["wrk", "--latency", "-t", "2", "-c", str(clients), "-d", f"{seconds}s", "-H", "Connection: close", f"http://127.0.0.1:{port}/{path}"]
    said = subprocess.run(line, capture_output=True, text=True, check=True).stdout
    if "Non-2xx" in said:
        measure.stop(f"wrk had replies of another status: {said}")
    rate, late = re.search(r"Requests/sec: +([\d.]+)", said), re.search(r"99% +(\S+)", said)
    return f"{measure.figure(float(rate[1]))} a second, {late[1]}"


def nginx(folder, tree):
    """nginx over a tree, on a port of its own, if it is installed."""
    program = shutil.which("nginx", path=f"{os.environ['PATH']}:/usr/sbin:/sbin")
    if not program:
        return None
    port, own = free_port(), folder / "nginx"
    own.mkdir()
    user = "user root; " if os.geteuid() == 0 else ""
    (own / "conf").write_text(NGINX.format(user=user, folder=own.absolute(), port=port, tree=tree.absolute()))
    return measure.Server([program, "-c", str(own.absolute() / "conf")], port)


def peers(folder, tree):
    """The servers of a tree, by their titles."""
    python = measure.Server([sys.executable, "-m", "http.server", "{port}", "--bind", "127.0.0.1", "--directory", str(tree)])
    found = {"http.server": python, "nginx over an export": nginx(folder, tree)}
    return {title: server for title, server in found.items() if server}


def of_archive(way, path, clients, seconds, peaks):
    """What wrk says of requests to the archive, which is served anew. The most memory that it held goes to a list."""
    way.serve()
    said = asked(way.server.port, path, clients, seconds)
    peaks.append(way.server.so_far().peak)
    way.close()
    return said


def main():
    words = measure.words(__doc__)
    words.add_argument("--packages", type=int, default=5000)
    words.add_argument("--clients", type=measure.numbers, default=[10, 100])
    words.add_argument("--seconds", type=int, default=10)
    line = words.parse_args()
    if not shutil.which("wrk"):
        measure.stop("wrk is not installed")
    folder, peaks = pathlib.Path(line.folder), []
    folder.mkdir()
    way, pool = filled(line.archive, str(folder), line.packages)
    way.close()
    measure.line([line.archive, "export", "--db", way.db, str(folder / "www")])
    files = {"Release": RELEASE, "Packages": PACKAGES, "a file of 200 KB": pool}
    with contextlib.ExitStack() as stack:
        found = {title: stack.enter_context(server) for title, server in peers(folder, folder / "www").items()}
        for clients in line.clients:
            rows = []
            for what, path in files.items():
                theirs = [asked(server.port, path, clients, line.seconds) for server in found.values()]
                rows.append([what, of_archive(way, path, clients, line.seconds, peaks), *theirs])
            print(f"{clients} clients:\n\n{measure.table(['What', 'archive', *found], rows)}\n", flush=True)
    print(f"The most memory of serve: {measure.figure(max(peaks) / 1024)} MiB.")


if __name__ == "__main__":
    main()
