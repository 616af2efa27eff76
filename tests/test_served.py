"""A test of an archive in a database file that is served on loopback: clients are sent what the program prints by its other words,
and what they deliver stays in the file. The program is that of program.py."""

from tests.program import MOMENT, NAMES, PACKAGES, Lines, Serving, get, put, release, replied, rest
from tests.wants import main

# Requests in their order, each with its whole reply: a delivery is new once, at no path is nothing, HTTP 1.0 will do, what ends early or
# brings no byte delivers nothing.
REPLIES = (
    (b"PUT /incoming/a.deb HTTP/1.1\r\nContent-Length: 3\r\n\r\nabc", replied("201 Created", b"new\n")),
    (b"PUT /incoming/a.deb HTTP/1.1\r\nContent-Length: 3\r\n\r\nabc", replied("200 OK", b"again\n")),
    (b"GET /nothing HTTP/1.1\r\n\r\n", replied("404 Not Found", b"404 Not Found\n")),
    (b"PUT /incoming/b.deb HTTP/1.0\r\nContent-Length: 3\r\n\r\nabc", replied("201 Created", b"new\n")),
    (b"PUT /incoming/c.deb HTTP/1.1\r\nContent-Length: 4\r\n\r\nabc", replied("400 Bad Request", b"400 Bad Request\n")),
    (b"", b""),
    (b"PUT /incoming/b.deb HTTP/1.1\r\nContent-Length: 3\r\n\r\nabc", replied("200 OK", b"again\n")),
)


class Served(Lines):
    def test_clients_are_answered_in_the_order_in_which_they_came(self):
        with Serving(self.made(), len(REPLIES)) as serving:
            clients = [serving.sent(request) for request, _ in REPLIES]
            self.assertEqual([rest(it) for it in clients], [reply for _, reply in REPLIES])
            self.assertEqual(serving.ended(), (0, "", ""))

    def test_a_file_is_served(self):
        db = self.made()
        deb = "pool/main/h/hello/hello_1.0-1_amd64.deb"
        with Serving(db, 6, at=MOMENT) as serving:
            for name in NAMES:
                self.assertEqual(serving.answer(put(name)), replied("201 Created", b"new\n"))
            # These come before the first of them is answered.
            requests = [b"POST /queue/run HTTP/1.1\r\n\r\n", get("dists/box/Release"), get(deb)]
            run, index, file = [rest(it) for it in [serving.sent(request) for request in requests]]
            self.assertEqual(run, replied("200 OK", f"accepted {NAMES[0]}\n".encode()))
            self.assertEqual(index, replied("200 OK", release()))
            self.assertEqual(file, replied("200 OK", b"abc", "application/octet-stream"))
            self.assertEqual(serving.ended(), (0, "", ""))
        self.assertEqual(self.line(0, "show", db, "dists/box/Release"), release().decode())
        self.assertEqual(self.line(0, "show", db, "dists/box/main/binary-amd64/Packages"), PACKAGES.decode())
        self.assertEqual(self.line(0, "show", db, deb), "abc")
        self.assertEqual(self.line(0, "verdicts", db), f"accepted {NAMES[0]}\n")


if __name__ == "__main__":
    main()
