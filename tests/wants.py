"""What tests need of the machine besides Python. If it is not there, a test is skipped, and says what is missing: each test does so by what is
here. After a module's last test a line is printed for each that was skipped. The file that SKIPPED names gets that line, too, and `make test`
makes its list from it.

The programs come with the packages of checks/tools."""
import os
import pathlib
import re
import shutil
import sqlite3
import subprocess
import sys
import unittest

TOOLS = pathlib.Path(__file__).resolve().parent.parent / "checks/tools"


def packages():
    """The Debian package of each program that tests want, by its name."""
    lines = [re.match(r"(\S+): (.+)", line) for line in TOOLS.read_text(encoding="ascii").splitlines()]
    return {program: line[1] for line in lines if line for program in line[2].split()}


def path_of(program):
    """The path of a program, which may be one for root, or None if it is not there."""
    return shutil.which(program, path=f"{os.environ.get('PATH', os.defpath)}:/usr/sbin:/sbin")


def named(program):
    """A program, and the package that has it if that is called otherwise."""
    package = packages().get(program, program)
    return program if package == program else f"{program} (package {package})"


# ---- why a test is skipped


def needs(*programs):
    """Skips a test if one of these programs is not there."""
    absent = [named(it) for it in programs if not path_of(it)]
    return needs_that(not absent, ", no ".join(absent))


def needs_that(is_there, what):
    """Skips a test if something else is not there."""
    return unittest.skipUnless(is_there, f"there is no {what}")


def needs_file(path):
    """Skips a test if a file is not there."""
    return needs_that(os.path.exists(path), path)


def needs_root(test):
    """Skips a test of whoever is not root."""
    return needs_that(os.geteuid() == 0, "right to be another user, which root has")(test)


def needs_strict_tables(test):
    """Skips a test if the SQLite that Python has is too old for the archive's tables."""
    return needs_that(sqlite3.sqlite_version_info >= (3, 37), "SQLite 3.37 in this Python")(test)


def needs_dput(package):
    """Skips a test if dput is not that of this package: dput and dput-ng can't both be installed."""
    path = path_of("dput")
    owner = subprocess.run(["dpkg-query", "-S", path], capture_output=True, text=True, check=False).stdout if path and path_of("dpkg-query") else ""
    return needs_that(owner.startswith(f"{package}:"), f"dput of the package {package}" + (", in whose place is another" if owner else ""))


def missing(what):
    """The exception of a test that finds out as it runs that something is not there."""
    return unittest.SkipTest(f"there is no {what}")


def no_file_system():
    """The exception of a test that can't mount a file system."""
    return missing("right to mount a file system, which root has outside of most containers")


# ---- what is said of it


def tell_skipped(what, why):
    """Says that something is skipped, and why."""
    print(f"skipped: {what}: {why}", file=sys.stderr, flush=True)
    if "SKIPPED" in os.environ:
        with open(os.environ["SKIPPED"], "a", encoding="utf-8") as file:
            file.write(f"{what}\t{why}\n")


class Runner(unittest.TextTestRunner):
    """Runs tests as `unittest.main` does, and says which were skipped."""

    def run(self, test):
        result = super().run(test)
        for it, why in result.skipped:
            tell_skipped(name_of(it), why)
        return result


def name_of(test):
    """The name of a test, with that of its module as `python3 -m` is given it."""
    module = getattr(sys.modules["__main__"].__spec__, "name", "")
    return re.sub(r"^__main__\.", f"{module} ", test.id())


def main():
    """Runs the tests of the module that is run."""
    unittest.main(module="__main__", testRunner=Runner)
