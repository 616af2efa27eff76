"""The tests that take minutes, one after another, as `make test-long` runs them: each is a line of LINES, a module and its words.

They are of the program that `rt ci` or `make build` built, or of the one that ARCHIVE names. Each is run, even if one before it
failed. The last lines are those of `make test`: what was skipped, what failed, and 'N passed, M failed'. The status is 0 if none failed."""
import sys

from tests.run import each_of, run_all

LINES = [
    "tests.test_waits",
    "tests.test_writes",
    "tests.test_hostile 10000",
    "tests.test_export_planted 600",
    "tests.test_large 48 64",
    "tests.test_large 200",
    "tests.test_large 1024",
    "tests.test_large_apt",
]


if __name__ == "__main__":
    sys.stdout.reconfigure(errors="backslashreplace")  # what a tool prints may have characters that this output can't have
    sys.exit(run_all(each_of(LINES)))
