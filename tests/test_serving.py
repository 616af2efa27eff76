"""Tests of how `serve` begins, waits for its clients, and ends: clients that are silent or stay, a program that is killed, one that
begins while another has the file. Other tests are of what it does not wait for: a log that nobody reads, moments in a pipe; and of who
may read the log of a database. The program is that of program.py. Waits of more than some seconds are in test_waits.py. Some tests need
strace; if that is not there they say that they were skipped."""
import contextlib
import fcntl
import os
import re
import resource
import signal
import socket
import stat
import tempfile
import time

from tests.ports import free_address
from tests.program import DATA, LONG, NAMES, Lines, Serving, fewest_seconds, get, put, put_of, replied, reset, rest, seconds_since, status_of, wait_until_read
from tests.wants import main, needs

NOTHING = replied("200 OK", b"")
NEW = replied("201 Created", b"new\n")
AGAIN = replied("200 OK", b"again\n")
TOO_LARGE = replied("413 Payload Too Large", b"413 Payload Too Large\n")
RUN = b"POST /queue/run HTTP/1.1\r\n\r\n"
ACCEPTED = replied("200 OK", f"accepted {NAMES[0]}\n".encode())
DEB = "pool/main/h/hello/hello_1.0-1_amd64.deb"

# The errors of accept that pass, for want of room and, as accept(2) has them, of a network; and some that do not.
PASSING = ["EMFILE", "ENFILE", "ENOBUFS", "ENOMEM"]
PASSING += ["ENETDOWN", "EPROTO", "ENOPROTOOPT", "EHOSTDOWN", "ENONET", "EHOSTUNREACH", "EOPNOTSUPP", "ENETUNREACH"]
LASTING = ["EBADF", "EINVAL", "ENOTSOCK", "EFAULT"]

# The call of fcntl that sets how many bytes a pipe holds, which Python names from 3.10 on.
F_SETPIPE_SZ = 1031


class Deadlines(Lines):
    def test_a_silent_client_is_closed_and_a_quick_one_beside_it_answered(self):
        def waited():
            with Serving(self.made(), 2) as serving:
                begun, silent, start = time.monotonic(), serving.connected(), time.monotonic()
                self.assertEqual(serving.answer(get("verdicts")), NOTHING)
                seconds = seconds_since(start)
                self.assertGreaterEqual(seconds_since(begun), 4.9)
                self.assertEqual(rest(silent), b"")
                self.assertEqual(serving.ended(), (0, "", ""))
            return seconds

        fewest = fewest_seconds(waited, 7)
        print(f"The quick client beside a silent one was answered behind {fewest:.2f} s.")
        self.assertLess(fewest, 7)

    def test_a_client_with_a_first_byte_may_be_silent_for_longer(self):
        request = get("verdicts")
        with Serving(self.made(), 1) as serving, serving.connected() as client:
            time.sleep(1)
            client.sendall(request[:1])
            time.sleep(6)
            client.sendall(request[1:])
            self.assertEqual(rest(client), NOTHING)
            self.assertEqual(serving.ended(), (0, "", ""))

    def test_a_client_that_falls_silent_is_closed(self):
        """In a head and in a body, beside each other: it is sent nothing, and the client after it is answered."""
        with contextlib.ExitStack() as stack:
            held = []
            for part in (get("verdicts")[:-1], put("hello_1.0-1_amd64.deb")[:-1]):
                serving = stack.enter_context(Serving(self.made(), 2))
                silent = stack.enter_context(serving.connected())
                silent.sendall(part)
                held.append((serving, silent, serving.sent(get("verdicts"))))
            for serving, silent, behind in held:
                self.assertEqual(rest(behind), NOTHING)
                self.assertEqual(rest(silent), b"")
                self.assertEqual(serving.ended(), (0, "", ""))

    def test_a_client_that_stays_behind_its_reply_is_let_go(self):
        def waited():
            with Serving(self.made(), 2) as serving, serving.connected() as staying:
                start = time.monotonic()
                staying.sendall(get("verdicts"))
                self.assertEqual(serving.answer(get("verdicts")), NOTHING)
                seconds = seconds_since(start)
                self.assertEqual(rest(staying), NOTHING)
                self.assertEqual(serving.ended(), (0, "", ""))
            self.assertGreaterEqual(seconds, 1.9)
            return seconds

        self.assertLess(fewest_seconds(waited, 4), 4)

    def test_a_client_that_goes_on_sending_behind_its_reply_is_let_go(self):
        def waited():
            with Serving(self.made(), 2) as serving, serving.connected() as sending:
                start = time.monotonic()
                with self.assertRaises(ConnectionError):
                    sending.sendall(get("verdicts") + b"." * 64_000_000)
                self.assertEqual(serving.answer(get("verdicts")), NOTHING)
                seconds = seconds_since(start)
                self.assertEqual(serving.ended(), (0, "", ""))
            return seconds

        self.assertLess(fewest_seconds(waited, 4), 4)

    def test_a_client_that_has_sent_much_of_a_body_that_is_too_large_reads_why(self):
        with Serving(self.made(), 1) as serving, serving.connected() as client:
            client.sendall(b"PUT /incoming/a.deb HTTP/1.1\r\nContent-Length: 4194305\r\n\r\n" + b"x" * 262_144)
            self.assertEqual(rest(client), TOO_LARGE)
            self.assertEqual(serving.ended(), (0, "", ""))

    def test_what_a_client_delivered_that_left_before_its_reply_is_there(self):
        with Serving(self.made(), 2) as serving:
            leaving = serving.connected()
            leaving.sendall(put(NAMES[1]))
            leaving.close()
            self.assertEqual(serving.answer(put(NAMES[1])), AGAIN)
            self.assertEqual(serving.ended(), (0, "", ""))

    def test_a_connection_counts_however_it_ends(self):
        with Serving(self.made(), 6) as serving:
            reset(serving.connected())
            serving.connected().close()
            half = serving.connected()
            half.sendall(b"PUT /inco")
            reset(half)
            self.assertEqual(status_of(serving.answer(b"GET /verdicts HT")), 400)
            self.assertEqual(status_of(serving.answer(put("hello_1.0-1_amd64.deb")[:-1])), 400)
            self.assertEqual(serving.answer(get("verdicts")), NOTHING)
            self.assertEqual(serving.ended(), (0, "", ""))


class Kills(Lines):
    """`serve` that is killed by a signal: what it answered is kept."""

    def killed(self, serving, number):
        serving.kill(number)
        self.assertEqual(serving.ended(), (-number, "", ""))

    def each(self):
        """The signals, each with a new database."""
        for number in (signal.SIGTERM, signal.SIGINT):
            yield number, self.made()

    def test_between_connections(self):
        for number, db in self.each():
            with Serving(db, 10) as serving:
                for name in NAMES:
                    self.assertEqual(serving.answer(put(name)), NEW)
                self.assertEqual(serving.answer(RUN), ACCEPTED)
                self.killed(serving, number)
            self.assertEqual(self.line(0, "verdicts", db), f"accepted {NAMES[0]}\n")
            self.assertEqual(self.line(0, "show", db, DEB), "abc")

    def test_before_the_first_connection(self):
        for number, db in self.each():
            with Serving(db, 10) as serving:
                serving.connected().close()
                self.killed(serving, number)
            self.assertEqual(self.line(0, "verdicts", db), "")

    def test_in_a_request_that_is_sent_by_half(self):
        for number, db in self.each():
            with Serving(db, 10) as serving:
                self.assertEqual(serving.answer(put(NAMES[0])), NEW)
                with serving.connected() as client:
                    client.sendall(put(NAMES[1])[:-1])
                    wait_until_read(client)
                    self.killed(serving, number)
                    self.assertEqual(rest(client), b"")
            self.assertEqual(self.line(0, "waiting", db, "--at", "0"), f"2 {NAMES[0]}\n")
            self.assertEqual(self.line(0, "put", db, "--at", "0", f"{DATA}/{NAMES[1]}"), f"new {NAMES[1]}\n")

    def test_behind_an_answer_whose_client_stays(self):
        for number, db in self.each():
            with Serving(db, 10) as serving, serving.connected() as client:
                client.sendall(put(NAMES[1]))
                self.assertEqual(rest(client), NEW)
                self.killed(serving, number)
            self.assertEqual(self.line(0, "put", db, "--at", "0", f"{DATA}/{NAMES[1]}"), f"again {NAMES[1]}\n")

    def test_while_a_request_is_answered(self):
        """A body is there whole or not at all, whenever the kill comes; and if it was answered it is there."""
        db = self.made()
        room = tempfile.TemporaryDirectory()
        self.addCleanup(room.cleanup)
        for number in range(12):
            name, body = f"file{number}_1.0-1_amd64.deb", bytes([number]) * 1_000_000
            with open(f"{room.name}/{name}", "wb") as it:
                it.write(body)
            with Serving(db, 1) as serving, serving.connected() as client:
                client.sendall(put_of(name, body))
                time.sleep(0.003 * number)
                serving.kill(signal.SIGTERM)
                reply = rest(client)
                status = serving.ended()[0]
            self.assertIn((reply, status), ((b"", -signal.SIGTERM), (NEW, -signal.SIGTERM), (NEW, 0)))
            words = ("again",) if reply else ("new", "again")
            self.assertIn(self.line(0, "put", db, "--at", "0", f"{room.name}/{name}"), [f"{word} {name}\n" for word in words])


class Beginnings(Lines):
    def test_clients_that_come_before_the_archive_is_open_are_answered(self):
        db = self.accepted()
        with Serving(db, 2) as holder, contextlib.ExitStack() as stack:
            self.assertEqual(holder.answer(b""), b"")
            held, serving = holder.connected(), stack.enter_context(Serving(db, 20))
            # A client that has sent a byte keeps the first server busy for longer than one that is silent.
            held.sendall(b"G")
            clients = [serving.sent(get("verdicts")) for _ in range(20)]
            clients[0].settimeout(1)
            with self.assertRaises(TimeoutError):
                clients[0].recv(1)
            clients[0].settimeout(LONG)
            held.close()
            self.assertEqual(holder.ended(), (0, "", ""))
            self.assertEqual([rest(it) for it in clients], [ACCEPTED] * 20)
            self.assertEqual(serving.ended(), (0, "", ""))

    def test_a_connection_that_can_not_be_accepted_for_now_is_accepted_later(self):
        """The program may open no more files for a while, but one that it may have begun to accept."""
        with Serving(self.made(), 4) as serving:
            self.assertEqual(serving.answer(get("verdicts")), NOTHING)
            hard = resource.prlimit(serving.process.pid, resource.RLIMIT_NOFILE)[1]
            resource.prlimit(serving.process.pid, resource.RLIMIT_NOFILE, (0, hard))
            begun, client = (serving.sent(get("verdicts")) for _ in range(2))
            client.settimeout(1)
            with self.assertRaises(TimeoutError):
                client.recv(1)
            self.assertTrue(serving.is_running())
            resource.prlimit(serving.process.pid, resource.RLIMIT_NOFILE, (hard, hard))
            client.settimeout(LONG)
            self.assertEqual([rest(it) for it in (begun, client)], [NOTHING] * 2)
            self.assertEqual(serving.answer(get("verdicts")), NOTHING)
            self.assertEqual(serving.ended(), (0, "", ""))

    @needs("strace")
    def test_which_errors_of_accept_end_it(self):
        """Each comes twice. Those that pass count as no connection."""
        db = self.made()
        for error in [*PASSING, *LASTING]:
            under = ["strace", "-f", "-qq", "-o", os.devnull, "-e", "trace=accept4", "-e", f"inject=accept4:error={error}:when=1..2"]
            with self.subTest(error), Serving(db, 2, under=under) as serving:
                if error in LASTING:
                    # The program may have ended before a client can connect.
                    with contextlib.suppress(ConnectionRefusedError):
                        serving.connected().close()
                    self.assertEqual(serving.ended(), (3, "", "archive: cannot listen\n"))
                    continue
                for _ in range(2):
                    self.assertEqual(serving.answer(get("verdicts")), NOTHING)
                self.assertEqual(serving.ended(), (0, "", ""))

    def test_which_fault_is_told(self):
        db = self.made()
        folder = os.path.dirname(db)
        with socket.create_server(("127.0.0.1", 0)) as taken:
            busy, free = ("%s:%d" % it for it in (taken.getsockname(), free_address()))
            for path, address, status, told in (
                (f"{folder}/absent.db", free, 1, "archive: K4\n"),
                (f"{folder}/absent.db", busy, 1, "archive: K4\n"),
                (f"{folder}/absent/a.db", busy, 3, "archive: K2\n"),
                (f"{folder}/box.conf", busy, 3, "archive: K2\n"),
                (db, busy, 3, "archive: cannot listen\n"),
                (db, "nowhere", 3, "archive: cannot listen\n"),
            ):
                with self.subTest(path=path, address=address):
                    self.assertEqual(self.line(status, "serve", path, "--at", "0", address, "1"), told)


class Unread(Lines):
    """A log that nobody reads: in a pipe that is full."""

    # The number of connections, and the number of bytes of their paths.
    COUNT, LONG_PATH = 24, 1000

    def test_lines_that_can_not_be_written_at_once_are_left_out_and_counted(self):
        reader, writer = os.pipe()
        fcntl.fcntl(reader, F_SETPIPE_SZ, 4096)
        with open(reader, "rb") as log, open(writer, "wb") as stderr, Serving(self.made(), self.COUNT, "--log", stderr=stderr) as serving:
            start = time.monotonic()
            for number in range(self.COUNT - 3):
                self.assertEqual(status_of(serving.answer(get(f"{number}/" + "a" * self.LONG_PATH))), 404)
            self.assertLess(seconds_since(start), LONG)
            told = os.read(reader, 4096)
            for number in range(self.COUNT - 3, self.COUNT):
                self.assertEqual(status_of(serving.answer(get(f"{number}/"))), 404)
            self.assertEqual(serving.ended()[0], 0)
            self.assertFalse(fcntl.fcntl(writer, fcntl.F_GETFL) & os.O_NONBLOCK)
            stderr.close()
            told = (told + log.read()).decode()
        self.expect_all(told.splitlines())

    def expect_all(self, lines):
        """Expects that each connection has a line, in their order, or is counted when the lines go on."""
        left_out = 0
        for line in lines:
            count = re.fullmatch(r"archive: (\d+) lines of the log were left out", line)
            if count:
                left_out += int(count[1])
        numbers = [int(line.split()[2].split("/")[1]) for line in lines if not line.startswith("archive: ")]
        self.assertEqual(numbers, sorted(set(numbers)))
        self.assertEqual(numbers[-1], self.COUNT - 1)
        self.assertGreater(left_out, 0)
        self.assertEqual(len(numbers) + left_out, self.COUNT)

    def test_moments_in_a_pipe_are_not_waited_for(self):
        db = self.made()
        folder = os.path.dirname(db)
        os.mkfifo(f"{folder}/pipe")
        with open(f"{folder}/now", "w", encoding="ascii") as it:
            it.write("9\n")
        os.symlink("pipe", f"{folder}/to the pipe")
        os.symlink("now", f"{folder}/to now")
        for name, moment in (("pipe", "7"), ("to the pipe", "7"), ("to now", "9")):
            with self.subTest(name), Serving(db, 2, "--moments", f"{folder}/{name}", "--log", at="7") as serving:
                for _ in range(2):
                    self.assertEqual(serving.answer(get("verdicts")), NOTHING)
                status, _, told = serving.ended()
                self.assertEqual((status, [line.split()[0] for line in told.splitlines()]), (0, [moment] * 2))


class Readers(Lines):
    """Who may read the log of a database: whoever may read the database."""

    def mode(self, path):
        return stat.S_IMODE(os.stat(path).st_mode)

    def test_a_log_gets_the_mode_of_its_database(self):
        db = self.accepted()
        link = f"{os.path.dirname(db)}/link.db"
        os.symlink("box.db", link)
        for path in (db, link):
            for mode, before in ((0o600, 0o644), (0o640, 0o600), (0o644, 0o666), (0o660, 0o660)):
                with self.subTest(path=path, mode=mode):
                    os.chmod(db, mode)
                    os.chmod(f"{db}-wal", before)
                    self.assertEqual(self.line(0, "verdicts", path), f"accepted {NAMES[0]}\n")
                    self.assertEqual((self.mode(db), self.mode(f"{db}-wal")), (mode, mode))
        self.assertFalse(os.path.exists(f"{link}-wal"))

    def test_a_log_has_the_mode_of_its_database_while_it_is_served(self):
        db = self.accepted()
        os.chmod(db, 0o600)
        os.chmod(f"{db}-wal", 0o644)
        with Serving(db, 1) as serving:
            self.assertEqual(serving.answer(put("hello_1.0-1_amd64.deb")), AGAIN)
            self.assertEqual(serving.ended(), (0, "", ""))
        self.assertEqual((self.mode(db), self.mode(f"{db}-wal")), (0o600, 0o600))

    def test_no_other_file_is_changed(self):
        """If the name of the log is another name of some file, the database is not opened, and the file stays as it is."""
        for another_name in (os.link, os.symlink):
            db = self.accepted()
            other = f"{os.path.dirname(db)}/other"
            with open(other, "wb") as it:
                it.write(b"abc")
            os.chmod(other, 0o600)
            os.unlink(f"{db}-wal")
            another_name(other, f"{db}-wal")
            with self.subTest(another_name.__name__):
                self.assertEqual(self.line(3, "verdicts", db), "archive: K2\n")
                self.assertEqual(self.mode(other), 0o600)


if __name__ == "__main__":
    main()
