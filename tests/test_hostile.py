"""A test of `serve` among hostile clients: python3 -m tests.test_hostile [COUNT]

COUNT connections (1,000 if it is not given) are cut, reset, silent, pipelined, too long or rubbish, always the same ones. Between them
a client delivers uploads, runs the queue and looks at what is shown: each of its answers has to be right, byte for byte; each
connection has its line in the log; and the memory of the server grows by at most 1 MiB after the first hundred. The program is that of
program.py."""
import hashlib
import random
import re
import signal
import socket
import sys
import time

from tests.program import Lines, Serving, get, put_of, replied, reset, rest, seconds_since, status_of
from tests.wants import main

COUNT = 1000
NAME, BODY = "noise_1.0-1_amd64.deb", b"noise" * 20_000
PUT = put_of(NAME, BODY)
RUN = b"POST /queue/run HTTP/1.1\r\n\r\n"
LINE = re.compile(r"0 [!-~]+ [!-~]+ (\d{3}|-) \d+ \d+")

CONTROL = "Package: {0}\nVersion: 1.0-1\nArchitecture: amd64\nMaintainer: Ann <ann@example.org>\nDescription: greets\n"
CHANGES = """Format: 1.8
Date: Sat, 02 Jul 2016 05:00:00 +0000
Source: {0}
Version: 1.0-1
Architecture: amd64
Distribution: box
Maintainer: Ann <ann@example.org>
Changes:
 {0} (1.0-1) box; urgency=low
 .
   * First.
"""


def lists_of(files):
    """The three lists of an upload's files."""
    text = ""
    for title, name, place in (("Checksums-Sha1", "sha1", ""), ("Checksums-Sha256", "sha256", ""), ("Files", "md5", "utils optional ")):
        lines = [f" {hashlib.new(name, body).hexdigest()} {len(body)} {place}{file}\n" for file, body in files.items()]
        text += f"{title}:\n{''.join(lines)}"
    return text


def upload_of(package):
    """The files of an upload of a package, the .changes last."""
    stem = f"{package}_1.0-1_amd64"
    files = {f"{stem}.deb": f"the body of {package}".encode(), f"{stem}.control": CONTROL.format(package).encode()}
    return {**files, f"{stem}.changes": (CHANGES.format(package) + lists_of(files)).encode()}


# ---- the hostile clients: each is given a connection, and the numbers by chance


def cut(client, chance):
    """A request that is cut off anywhere, and done with."""
    client.sendall(PUT[: chance.randrange(1, len(PUT))])
    client.shutdown(socket.SHUT_WR)
    return rest(client), {400}


def left(client, chance):
    """A request that is cut off anywhere, and whose reply is not waited for."""
    client.sendall(PUT[: chance.randrange(1, 200)])
    client.close()


def torn(client, chance):
    """A request that is cut off anywhere by a reset."""
    client.sendall(PUT[: chance.randrange(1, len(PUT))])
    reset(client)


def idle(client, chance):
    """Nothing, for a moment."""
    time.sleep(chance.random() / 100)
    client.close()


def idle_and_torn(client, chance):
    """Nothing, and a reset."""
    time.sleep(chance.random() / 100)
    reset(client)


def pipelined(client, chance):
    """Several requests, the first of which alone is answered."""
    client.sendall(get("nothing") * chance.randrange(2, 20))
    client.shutdown(socket.SHUT_WR)
    return rest(client), {404}


def headed(client, chance):
    """A head of 8,193 bytes."""
    client.sendall(b"GET /nothing HTTP/1.1\r\na: ".ljust(8189, b"b") + b"\r\n\r\n")
    client.shutdown(socket.SHUT_WR)
    return rest(client), {431}


def longer(client, chance):
    """A body that is shorter than announced, by up to 4 MiB."""
    client.sendall(f"PUT /incoming/{NAME} HTTP/1.1\r\nContent-Length: {chance.randrange(101, 4_194_305)}\r\n\r\n".encode() + b"." * 100)
    client.shutdown(socket.SHUT_WR)
    return rest(client), {400}


def shorter(client, chance):
    """A body that is longer than announced: what was announced is delivered."""
    client.sendall(put_of(NAME, b"noise") + b"." * chance.randrange(1, 100_000))
    client.shutdown(socket.SHUT_WR)
    return rest(client), {200, 201}


def numbered(client, chance):
    """A length that is not valid, or too large."""
    length = chance.choice(("-1", "4194305", "99999999999999999999999", "x", "", "1, 2"))
    client.sendall(f"PUT /incoming/{NAME} HTTP/1.1\r\nContent-Length: {length}\r\n\r\n".encode())
    client.shutdown(socket.SHUT_WR)
    return rest(client), {400, 413}


def rubbish(client, chance):
    """Bytes by chance."""
    client.sendall(chance.randbytes(chance.randrange(1, 20_000)))
    client.shutdown(socket.SHUT_WR)
    return rest(client), {400, 431}


def rubbish_and_torn(client, chance):
    """Bytes by chance, and a reset."""
    client.sendall(chance.randbytes(chance.randrange(1, 20_000)))
    reset(client)


def unread(client, chance):
    """A reply that is not read, and a reset."""
    client.sendall(get(f"pool/main/n/noise/{NAME}"))
    reset(client)


def dribbled(client, chance):
    """A request that comes in pieces."""
    request = get("nothing")
    for start in range(0, len(request), 7):
        client.sendall(request[start:start + 7])
        time.sleep(0.0005)
    client.shutdown(socket.SHUT_WR)
    return rest(client), {404}


def chunked(client, chance):
    """A body in chunks."""
    client.sendall(f"PUT /incoming/{NAME} HTTP/1.1\r\nTransfer-Encoding: chunked\r\n\r\n5\r\nnoise\r\n0\r\n\r\n".encode())
    client.shutdown(socket.SHUT_WR)
    return rest(client), {501}


HOSTILE = (
    cut, left, torn, idle, idle_and_torn, pipelined, headed, longer, shorter, numbered, rubbish, rubbish_and_torn, unread, dribbled, chunked,
)


def peak_of(process):
    """The most memory that a process has had, in KiB."""
    with open(f"/proc/{process.pid}/status", encoding="ascii") as it:
        return next(int(line.split()[1]) for line in it if line.startswith("VmHWM:"))


class Hostile(Lines):
    def attack(self, serving, number, chance):
        """One hostile connection. The first ones are of each kind in turn."""
        kind = HOSTILE[number] if number < len(HOSTILE) else chance.choice(HOSTILE)
        answered = kind(serving.connected(), chance)
        if answered:
            reply, statuses = answered
            self.assertIn(status_of(reply), statuses, f"{kind.__name__}, number {number}")

    def deliver(self, serving, number):
        """Delivers an upload, runs the queue, and looks at what is shown of it. Answers how many connections that took."""
        package = f"pkg{number:05}"
        files = upload_of(package)
        for name, body in files.items():
            self.assertEqual(serving.answer(put_of(name, body)), replied("201 Created", b"new\n"))
        stem = f"{package}_1.0-1_amd64"
        self.assertEqual(serving.answer(RUN), replied("200 OK", f"accepted {stem}.changes\n".encode()))
        deb = serving.answer(get(f"pool/main/p/{package}/{stem}.deb"))
        self.assertEqual(deb, replied("200 OK", f"the body of {package}".encode(), "application/octet-stream"))
        return len(files) + 2

    def deliver_again(self, serving, number):
        """Delivers an upload that was judged, and runs the queue. Answers how many connections that took."""
        files = upload_of(f"pkg{number:05}")
        for name, body in files.items():
            self.assertEqual(serving.answer(put_of(name, body)), replied("200 OK", b"again\n"))
        self.assertEqual(serving.answer(RUN), replied("200 OK", b""))
        return len(files) + 1

    def test_each_good_answer_is_right(self):
        """The store's cache is full before the first of them, and each kind of good request has come among the first hundred."""
        chance, db, start = random.Random(1), self.made(), time.monotonic()
        uploads, made = [], 0
        silent = {count * COUNT // 8 for count in range(1, 3)}
        with Serving(db, 1_000_000, "--log") as serving:
            self.assertEqual(serving.answer(get("queue")), replied("200 OK", b""))
            made += 1
            for byte in b"abc":
                large = put_of(f"large{byte}.deb", bytes([byte]) * 4_194_304)
                self.assertEqual(serving.answer(large), replied("201 Created", b"new\n"))
                made += 1
            for number in range(COUNT):
                if number < 88 and number % 4 == 3:
                    made += self.deliver(serving, number)
                    uploads.append(f"accepted pkg{number:05}_1.0-1_amd64.changes\n")
                elif number == 95 or number >= 100 and number % (COUNT // 20) == COUNT // 20 - 1:
                    made += self.deliver_again(serving, number % 22 * 4 + 3)
                if number % 10 == 9:
                    verdicts = serving.answer(get("verdicts"))
                    self.assertEqual(verdicts, replied("200 OK", "".join(uploads).encode()))
                    made += 1
                held = serving.connected() if number in silent else None
                self.attack(serving, number, chance)
                made += 1
                if held:
                    self.assertEqual(rest(held), b"")
                    made += 1
                if number == min(COUNT, 100) - 1:
                    serving.answer(get("verdicts"))
                    made += 1
                    first = peak_of(serving.process)
            serving.answer(get("verdicts"))
            made += 1
            last, took = peak_of(serving.process), seconds_since(start)
            serving.logged(made)
            serving.kill(signal.SIGTERM)
            status, printed, told = serving.ended()
        print(f"{COUNT} hostile connections: {took:.1f} s, VmHWM {first} KiB behind the first hundred and {last} KiB behind all.")
        self.assertEqual((status, printed), (-signal.SIGTERM, ""))
        self.assertEqual(self.line(0, "verdicts", db), "".join(uploads))
        self.assertLessEqual(last - first, 1024)
        self.assertEqual([line for line in told.splitlines() if not LINE.fullmatch(line)], [])
        self.assertEqual(told.count("\n"), made)


if __name__ == "__main__":
    if len(sys.argv) > 1 and sys.argv[1].isdigit():
        COUNT = int(sys.argv.pop(1))
    main()
