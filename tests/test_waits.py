"""Tests of how long `serve` waits for a slow client, which take minutes. They run beside each other. The program is that of
program.py."""
import contextlib
import itertools
import socket
import sys
import threading
import time
import unittest

from tests.program import Lines, Serving, get, put, replied, rest, seconds_since
from tests.wants import name_of, tell_skipped
from uploads import uploads

NOTHING = replied("200 OK", b"")


def send_slowly(client, request, pause):
    """Sends a byte, and one more after each pause, until the connection ends. Answers nothing."""
    with contextlib.suppress(OSError):
        for place in range(len(request)):
            client.sendall(request[place:place + 1])
            time.sleep(pause)


class Waits(Lines):
    def held(self, begin, least, most, reply=b"", db=None):
        """A client begins, and another comes after it, which is answered between these numbers of seconds after the first
        came. The archive is a new one, if it is not given."""
        with Serving(db or self.made(), 2) as serving, serving.connected() as client:
            start = time.monotonic()
            threading.Thread(target=begin, args=(client,), daemon=True).start()
            time.sleep(0.2)
            other = serving.sent(get("verdicts"))
            other.settimeout(most + 10)
            self.assertEqual(rest(other), NOTHING)
            waited = seconds_since(start)
            self.assertEqual(rest(client), reply)
            self.assertEqual(serving.ended(), (0, "", ""))
        print(f"{self.id().rpartition('.')[2]}: {waited:.2f} s.")
        self.assertGreaterEqual(waited, least)
        self.assertLess(waited, most)

    def test_a_head_and_then_silence(self):
        self.held(lambda client: client.sendall(get("verdicts")[:-1]), 29.9, 32)

    def test_a_part_of_a_body_and_then_silence(self):
        self.held(lambda client: client.sendall(put("hello_1.0-1_amd64.deb")[:-1]), 29.9, 32)

    def test_a_byte_now_and_then(self):
        self.held(lambda client: send_slowly(client, get("verdicts"), 25), 119.9, 123)

    def test_many_bytes_slowly(self):
        self.held(lambda client: send_slowly(client, b"PUT /incoming/a HTTP/1.1\r\nContent-Length: 4000\r\n\r\n" + b"." * 4000, 0.1), 119.9, 123)

    def test_many_mebibytes_and_then_a_byte_now_and_then(self):
        """34 MiB are 30 more than the first four, and give 30 seconds more."""
        def begin(client):
            with contextlib.suppress(OSError):
                client.sendall(b"PUT /incoming/a HTTP/1.1\r\nContent-Length: 50331648\r\n\r\n")
                for _ in range(34):
                    client.sendall(bytes(1 << 20))
            send_slowly(client, bytes(1000), 25)

        self.held(begin, 149.9, 153, db=self.made_for_large())

    def made_for_large(self):
        """A new database with an archive that takes files of 64 MiB."""
        db = self.made()
        conf = f"{db}.conf"
        with open(conf, "w", encoding="ascii") as it:
            it.write("Codename: box\nArchitectures: amd64 source\nComponents: main\nMaxFileSize: 64\n")
        self.line(0, "configure", db, "--at", "0", conf)
        return db

    def test_a_reply_that_is_not_read(self):
        """A file of nearly 4 MiB, of which the system takes a part off the server, and the client nothing."""
        with Serving(self.accepted_large(), 2) as serving, socket.socket() as client:
            client.setsockopt(socket.SOL_SOCKET, socket.SO_RCVBUF, 4096)
            self.connect(client, serving)
            start = time.monotonic()
            client.sendall(get("pool/main/l/large/large_1.0-1_amd64.deb"))
            time.sleep(0.2)
            self.assertEqual(serving.answer(get("nothing"))[:12], b"HTTP/1.1 404")
            waited = seconds_since(start)
            self.assertEqual(serving.ended(), (0, "", ""))
        print(f"test_a_reply_that_is_not_read: {waited:.2f} s.")
        self.assertGreaterEqual(waited, 29.9)
        self.assertLess(waited, 33)

    def connect(self, client, serving):
        """Connects a client as soon as something listens."""
        for _ in range(2000):
            with contextlib.suppress(ConnectionRefusedError):
                return client.connect(serving.address)
            time.sleep(0.005)
        raise ConnectionRefusedError

    def accepted_large(self):
        """A new database in which a package of nearly 4 MiB is accepted."""
        db = self.made()
        paths = uploads.write(f"{db}.large", uploads.upload_of(uploads.LARGE))
        self.line(0, "put", db, "--at", "0", *paths)
        self.assertEqual(self.line(0, "run", db, "--at", "0"), "accepted large_1.0-1_amd64.changes\n")
        return db


def all_at_once():
    """Runs each test in a thread of its own, and answers whether all passed."""
    tests = list(unittest.defaultTestLoader.loadTestsFromTestCase(Waits))
    results = [unittest.TestResult() for _ in tests]
    threads = [threading.Thread(target=test.run, args=(result,)) for test, result in zip(tests, results)]
    for it in threads:
        it.start()
    for it in threads:
        it.join()
    for result in results:
        for test, text in result.failures + result.errors:
            print(f"{test}\n{text}")
    for test, why in itertools.chain.from_iterable(it.skipped for it in results):
        tell_skipped(name_of(test), why)
    print(f"Ran {len(tests)} tests, {sum(not it.wasSuccessful() for it in results)} failed.")
    return all(it.wasSuccessful() for it in results)


if __name__ == "__main__":
    sys.exit(0 if all_at_once() else 1)
