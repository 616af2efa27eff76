"""Tests of `serve` over a file whose writes fail one by one, or whose disk is full at one of them. They take minutes, and need strace.
The program is that of program.py."""

from tests import test_failing
from tests.wants import main, needs


@needs("strace")
class FailingWrites(test_failing.FailingCalls):
    NAMES, FAULT = ("pwrite64", "ftruncate"), "EIO"

    def test_each_write_fails_once(self):
        self.each_fails_once()


@needs("strace")
class FullWrites(test_failing.FailingCalls):
    NAMES, FAULT = ("pwrite64",), "ENOSPC"

    def test_the_disk_is_full_at_each_write(self):
        self.each_fails_once()


if __name__ == "__main__":
    main()
