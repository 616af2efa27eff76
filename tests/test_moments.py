"""Tests of the moments of `serve --moments`, and of the lines of `serve --log`. The program is that of program.py."""
import os
import re

from tests.program import NAMES, PACKAGES, Lines, Serving, get, put, release, replied, reset, rest, wait_until_read
from tests.wants import main

NOTHING = replied("200 OK", b"")
BAD = replied("400 Bad Request", b"400 Bad Request\n")
LINE = re.compile(r"(\d+) ([!-~]+) ([!-~]+) (\d{3}|-) (\d+) (\d+)")


class Moments(Lines):
    # What the file holds before each connection, and the moment that the connection then has, if `--at` is 100.
    SEEN = (
        (None, 100),
        (b"99\n", 100),
        (b"200\n", 200),
        (b"150\n", 200),
        (b"300", 300),
        (None, 300),
        (b"rubbish\n", 300),
        (b"", 300),
        (b"\n", 300),
        (b"400\n500\n", 300),
        (b"400\n\n", 300),
        (b"400\r\n", 300),
        (b" 400\n", 300),
        (b"400 \n", 300),
        (b"+400\n", 300),
        (b"-400\n", 300),
        (b"0x400\n", 300),
        (b"400.5\n", 300),
        (b"400\x00", 300),
        (b"00000000400\n", 300),
        (b"4102444800\n", 300),
        (b"9999999999\n", 300),
        (b"18446744073709552016\n", 300),
        (b"4" * 1_000_000, 300),
        (b"0000000400\n", 400),
        (b"4102444799\n", 4102444799),
        (b"500\n", 4102444799),
    )

    def test_which_moment_a_connection_has(self):
        db = self.made()
        moments = f"{os.path.dirname(db)}/moments"
        with Serving(db, len(self.SEEN), "--moments", moments, "--log", at="100") as serving:
            for text, _ in self.SEEN:
                self.hold(moments, text)
                self.assertEqual(serving.answer(get("verdicts")), NOTHING)
            status, printed, told = serving.ended()
        self.assertEqual((status, printed), (0, ""))
        self.assertEqual([line.split()[0] for line in told.splitlines()], [str(moment) for _, moment in self.SEEN])

    def hold(self, path, text):
        """Has a file hold a text, or takes it away."""
        if text is None:
            if os.path.exists(path):
                os.unlink(path)
            return
        with open(path, "wb") as it:
            it.write(text)

    def test_a_folder_is_no_moment(self):
        db = self.made()
        with Serving(db, 1, "--moments", os.path.dirname(db), "--log", at="7") as serving:
            self.assertEqual(serving.answer(get("verdicts")), NOTHING)
            status, _, told = serving.ended()
        self.assertEqual((status, told.split()[0]), (0, "7"))

    def test_a_run_has_the_moment_of_its_connection(self):
        db = self.made()
        moments = f"{os.path.dirname(db)}/moments"
        with Serving(db, 5, "--moments", moments, at="1467436000") as serving:
            for name in NAMES:
                serving.answer(put(name))
            self.hold(moments, b"1467436850\n")
            serving.answer(b"POST /queue/run HTTP/1.1\r\n\r\n")
            self.hold(moments, b"1467436900\n")
            self.assertEqual(serving.answer(get("dists/box/Release")), replied("200 OK", release()))
            self.assertEqual(serving.ended(), (0, "", ""))
        self.assertEqual(self.line(0, "show", db, "dists/box/main/binary-amd64/Packages"), PACKAGES.decode())


class Log(Lines):
    def logged(self, client, *words):
        """What a client was sent by a server with one connection, and the words of the line that it logged."""
        with Serving(self.made(), 1, "--log", *words, at="12") as serving:
            reply = client(serving)
            status, printed, told = serving.ended()
        self.assertEqual((status, printed), (0, ""))
        self.assertEqual(told.count("\n"), 1, told)
        found = LINE.fullmatch(told.removesuffix("\n"))
        self.assertTrue(found, told)
        return reply, found.groups()

    def logged_within(self, client, most, least=0):
        """As `logged`. The connection took the least number of milliseconds, and once of three times less than the most: a machine may stall."""
        for _ in range(3):
            reply, words = self.logged(client)
            self.assertGreaterEqual(int(words[5]), least)
            if int(words[5]) < most:
                break
        self.assertLess(int(words[5]), most)
        return reply, words

    def test_what_is_logged_of_a_request_and_its_reply(self):
        for request, method, path, status, body in (
            (get("verdicts"), "GET", "/verdicts", "200 OK", b""),
            (put(NAMES[1]), "PUT", f"/incoming/{NAMES[1]}", "201 Created", b"new\n"),
            (put(NAMES[1])[:-1], "PUT", f"/incoming/{NAMES[1]}", "400 Bad Request", b"400 Bad Request\n"),
            (get("nothing"), "GET", "/nothing", "404 Not Found", b"404 Not Found\n"),
            (get("verdicts?a=b%20&c#d"), "GET", "/verdicts?a=b%20&c#d", "400 Bad Request", b"400 Bad Request\n"),
            (get('"\\%'), "GET", '/"\\%', "404 Not Found", b"404 Not Found\n"),
            (b"GET /a\x01\x1b[\xff\x7f\x80b HTTP/1.1\r\n\r\n", "GET", "/a??[???b", "400 Bad Request", b"400 Bad Request\n"),
            (b"G\xc3\x9cT /a HTTP/1.1\r\n\r\n", "G??T", "/a", "400 Bad Request", b"400 Bad Request\n"),
            (b"GET\r\n\r\n", "GET", "-", "400 Bad Request", b"400 Bad Request\n"),
            (b"GET /ver", "GET", "/ver", "400 Bad Request", b"400 Bad Request\n"),
            (b"\r\n" + get("verdicts"), "GET", "/verdicts", "200 OK", b""),
            (b"\n\r\n\n\n" + get("nothing"), "GET", "/nothing", "404 Not Found", b"404 Not Found\n"),
            (b"\r\n\r\n" + get("verdicts"), "-", "-", "400 Bad Request", b"400 Bad Request\n"),
            (b"\rGET /verdicts HTTP/1.1\r\n\r\n", "-", "-", "400 Bad Request", b"400 Bad Request\n"),
            (get("a" * 1019), "GET", "/" + "a" * 1019, "404 Not Found", b"404 Not Found\n"),
            (get("a" * 1020), "GET", "/" + "a" * 1019, "404 Not Found", b"404 Not Found\n"),
            (get("a" * 5000), "GET", "/" + "a" * 1019, "404 Not Found", b"404 Not Found\n"),
            (b"\x00" * 9000, "?" * 1024, "-", "431 Request Header Fields Too Large", b"431 Request Header Fields Too Large\n"),
        ):
            with self.subTest(request[:40]):
                wanted = replied(status, body)
                reply, words = self.logged_within(lambda serving: serving.answer(request), 2000)
                self.assertEqual(reply, wanted)
                self.assertEqual(words[:5], ("12", method, path, status[:3], str(len(wanted))))

    def test_a_client_without_a_byte(self):
        reply, words = self.logged_within(lambda serving: serving.answer(b""), 1000)
        self.assertEqual((reply, words[:5]), (b"", ("12", "-", "-", "-", "0")))

    def test_a_silent_client(self):
        reply, words = self.logged_within(lambda serving: rest(serving.connected()), 7000, least=4900)
        self.assertEqual((reply, words[:5]), (b"", ("12", "-", "-", "-", "0")))

    def test_a_client_that_resets(self):
        def client(serving):
            it = serving.connected()
            it.sendall(put(NAMES[1])[:-1])
            wait_until_read(it)
            reset(it)

        _, words = self.logged(client)
        self.assertEqual(words[:5], ("12", "PUT", f"/incoming/{NAMES[1]}", "-", "0"))

    def test_a_client_that_stays(self):
        def client(serving):
            it = serving.connected()
            it.sendall(get("verdicts"))
            serving.ended()
            return rest(it)

        reply, words = self.logged_within(client, 4000, least=1900)
        self.assertEqual((reply, words[:5]), (NOTHING, ("12", "GET", "/verdicts", "200", str(len(NOTHING)))))

    def test_lines_stand_in_the_order_of_the_connections(self):
        with Serving(self.made(), 3, "--log") as serving:
            clients = [serving.sent(get(path)) for path in ("verdicts", "queue", "c")]
            self.assertEqual([rest(it) for it in clients][:2], [NOTHING, NOTHING])
            told = serving.ended()[2]
        self.assertEqual([line.split()[2] for line in told.splitlines()], ["/verdicts", "/queue", "/c"])

    def test_a_line_that_can_not_be_written_is_lost_and_nothing_else(self):
        reader, writer = os.pipe()
        os.close(reader)
        with open("/dev/full", "wb") as full, open(writer, "wb") as closed:
            for stderr in (full, closed):
                with self.subTest(stderr=stderr.name), Serving(self.made(), 2, "--log", stderr=stderr) as serving:
                    self.assertEqual(serving.answer(get("verdicts")), NOTHING)
                    self.assertEqual(serving.answer(get("verdicts")), NOTHING)
                    self.assertEqual(serving.ended(), (0, "", ""))


if __name__ == "__main__":
    main()
