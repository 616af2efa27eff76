"""Tests of the ports that servers of tests get."""
import socket
import subprocess
import sys
import unittest

from tests import ports
from tests.tools import ROOT
from tests.wants import main

# Asks for twenty ports of the same few as all such processes, prints them, and waits until it may end.
ASKS = """
from tests import ports
every = ports.ports()[:120]
ports.ports = lambda: every
print(*(ports.free_port() for _ in range(20)), flush=True)
input()
"""


class Ports(unittest.TestCase):
    def test_no_two_processes_have_one(self):
        words = [sys.executable, "-c", ASKS]
        streams = {"stdin": subprocess.PIPE, "stdout": subprocess.PIPE, "text": True}
        for _ in range(2):  # what ended processes had is free again
            running = [subprocess.Popen(words, cwd=ROOT, **streams) for _ in range(5)]
            had = [port for it in running for port in it.stdout.readline().split()]
            for it in running:
                it.communicate("\n")
            self.assertEqual((len(had), len({*had})), (100, 100))

    def test_one_at_which_something_listens_is_none(self):
        port = ports.free_port()
        self.assertTrue(ports.is_free(port))
        with socket.create_server(("127.0.0.1", port)):
            self.assertFalse(ports.is_free(port))
        self.assertTrue(ports.is_free(port))
        ports.give_back(port)


if __name__ == "__main__":
    main()
