"""What `adopt make` takes for a folder of many packages of 4 KiB, none of which has an index.

    python3 -m bench.adopting FOLDER [--packages 10000]

FOLDER is a new folder to work in. One line is printed for each of two runs: the time that passes, the processor time, and the most memory that a process
takes. The second run finds what the first has made.
"""
import argparse
import hashlib
import os
import resource
import subprocess
import sys
import time

from tests.tools import ROOT
from uploads import uploads

SIZE = 4096


def package_file(name):
    """The bytes of a package file of 4 KiB."""
    members = {"debian-binary": b"2.0\n", "control.tar.gz": uploads.tar_of({"./control": uploads.control_of(uploads.Package(name))})}
    begin = uploads.ar_of(members)
    left = SIZE - len(begin) - 60
    data = (hashlib.shake_128(name.encode()).digest(left)) if left > 0 else b""
    return begin + b"%-16s%-12d%-6d%-6d%-8o%-10d`\n" % (b"data.tar", uploads.MOMENT, 0, 0, 0o100644, len(data)) + data


def processor_time():
    used = resource.getrusage(resource.RUSAGE_CHILDREN)
    return used.ru_utime + used.ru_stime


def main():
    parser = argparse.ArgumentParser(description=__doc__, formatter_class=argparse.RawDescriptionHelpFormatter)
    parser.add_argument("folder")
    parser.add_argument("--packages", type=int, default=10_000)
    words = parser.parse_args()
    os.makedirs(f"{words.folder}/debs")
    for number in range(words.packages):
        name = f"p{number:05d}"
        with open(f"{words.folder}/debs/{name}_1.0-1_amd64.deb", "wb") as file:
            file.write(package_file(name))
    for what in ("made", "made again"):
        start, used = time.monotonic(), processor_time()
        with open(f"{words.folder}/list", "wb") as out:
            line = [sys.executable, f"{ROOT}/bin/adopt", "make", f"{words.folder}/debs", f"{words.folder}/ready", "--suite", "box"]
            status = subprocess.run(line, stdout=out, check=False).returncode
        most = resource.getrusage(resource.RUSAGE_CHILDREN).ru_maxrss
        print(f"{words.packages} packages {what}: {time.monotonic() - start:.1f} s, {processor_time() - used:.1f} s of processor time, {most // 1024} MiB, status {status}", flush=True)


if __name__ == "__main__":
    main()
