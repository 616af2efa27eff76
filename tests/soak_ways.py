"""An archive in a database file, and the ways in which soak.py gives it commands: requests to `serve`, a list to `batch`, files to
one `put`, and lines of their own. It may be killed at commands that have a kill; another archive gets the same commands without
kills.

In an archive that is killed, what had no answer is given again. The other archive is given the same command twice, so that it shows what
the second answer is. It also shows its contents before, between and after."""
import collections
import contextlib
import dataclasses
import os
import random
import signal
import socket
import subprocess
import time
import urllib.parse

from tests import test_hostile
from tests.program import Serving, get, put_of, reset, rest, status_of
from tests.soak_commands import WITH_LINES
from tests.soak_files import INDICES

# The request of each command, with its words.
REQUESTS = {
    "run": "POST /queue/run",
    "clean": "POST /queue/clean",
    "waiting": "GET /queue",
    "verdicts": "GET /verdicts",
    "copy": "POST /copy/{}/{}/{}",
    "promote": "POST /promote/{}/{}",
    "remove": "POST /remove/{}/{}",
    "show": "GET /{}",
}

# Paths that show the state of an archive at little cost: each Release has the digests of all indices of its suite.
LOOKS = [*(get(f"dists/{suite}/Release") for suite in INDICES), get("queue"), get("verdicts")]

# The commands whose lines have no moment.
TIMELESS = {"show", "verdicts"}

# The number of connections of a server that is to be killed, and how long a program may go on, in seconds.
MANY, LONG = 1_000_000, 300


class Difference(Exception):
    """What is not as it has to be."""


@dataclasses.dataclass
class Given:
    """What a command was answered, the first time and perhaps the second; what a client had of the reply that a kill cut off; and how
    the archive looked on the way."""

    first: object
    second: object = None
    partial: bytes = b""
    looks: tuple = ()


@dataclasses.dataclass
class Attempt:
    """The answers to a part of a list, from a command on: whole answers, none for a guard that was cut off, and perhaps a part of the
    next. It may be the second time."""

    start: int
    answers: list
    partial: bytes
    status: int
    told: bytes
    is_again: bool = False


def request_of(command):
    """The bytes of a command's request."""
    if command.file:
        return put_of(urllib.parse.quote(command.file.name, safe="+~"), command.file.body)
    return (REQUESTS[command.word].format(*command.words) + " HTTP/1.1\r\n\r\n").encode()


def asked(serving, request):
    """The answer to a request. The archive may answer before it has all of it."""
    client = serving.connected()
    with contextlib.suppress(ConnectionResetError, BrokenPipeError):
        client.sendall(request)
    return rest(client)


def cut(serving, command):
    """Gives a part of a request, and then waits for the answer, goes, or resets."""
    share, end = command.words
    request = request_of(command)
    client = serving.connected()
    client.sendall(request[: 1 + int(share * (len(request) - 1))])
    if end == "resets":
        return reset(client) or b""
    if end == "goes":
        return client.close() or b""
    client.shutdown(socket.SHUT_WR)
    return rest(client)


def attacked(serving, command):
    """The answer to one of the hostile clients of test_hostile.py."""
    kind, seed = command.words
    answered = getattr(test_hostile, kind)(serving.connected(), random.Random(seed))
    if not answered:
        return b""
    reply, statuses = answered
    if status_of(reply) not in statuses:
        raise Difference(f"{command}: answered {reply!r:.300}")
    return reply


def answered(serving, command):
    """The answer to a command over HTTP."""
    if command.word == "cut":
        return cut(serving, command)
    return attacked(serving, command) if command.word == "hostile" else asked(serving, request_of(command))


def count_of_lines(command, following, lines):
    """How many of these lines answer a command: those before the mark after it, or all if no command follows."""
    if command.word not in WITH_LINES:
        return 0 if command.word == "unreadable" else 1
    if not following:
        return len(lines)
    mark = f"refused Q1 {following.file.name}\n".encode()
    return lines.index(mark) if mark in lines else len(lines) + 1


def divided(commands, text):
    """The printed text, as the answers of commands: those that are whole, and the rest."""
    lines = text.splitlines(keepends=True)
    answers, at = [], 0
    for command, following in zip(commands, [*commands[1:], None]):
        count = count_of_lines(command, following, lines[at:])
        if at + count > len(lines) or count and not lines[at + count - 1].endswith(b"\n"):
            break
        answers.append(b"".join(lines[at:at + count]))
        at += count
    return answers, b"".join(lines[at:])


def pass_guard(stretch, attempt):
    """Does not repeat a guard whose lines were cut off, or that perhaps had none: what follows it may have been
    begun."""
    place = attempt.start + len(attempt.answers)
    if place < len(stretch.commands) and stretch.commands[place].word == "guard":
        attempt.answers.append(None)
        attempt.partial = b""


class Side:
    """An archive with the name of its database file, in a folder, and files to deliver in another."""

    def __init__(self, program, folder, name, files, is_killed):
        self.program, self.db, self.files, self.is_killed = program, f"{folder}/{name}.db", files, is_killed
        self.kills = collections.Counter()
        self.opening, self.pace = 0.1, {}

    # ---- lines

    def started(self, words, out, err):
        return subprocess.Popen([self.program, *words], stdin=subprocess.DEVNULL, stdout=out, stderr=err)

    def ended(self, words, pace, kill=None):
        """Runs a line, and kills it after its share of what such a line took before. Answers the status, and both outputs."""
        start = time.monotonic()
        with open(f"{self.db}.out", "w+b") as out, open(f"{self.db}.err", "w+b") as err:
            process = self.started(words, out, err)
            try:
                process.wait(kill.share * pace if kill else LONG)
            except subprocess.TimeoutExpired:
                process.kill()
                process.wait()
            texts = [it.seek(0) or it.read() for it in (out, err)]
        if process.returncode in (0, 1):
            self.took = time.monotonic() - start
        elif not kill or process.returncode != -signal.SIGKILL:
            raise Difference(f"{words}: ended with {process.returncode}, printed {texts!r:.600}")
        return process.returncode, *texts

    def line(self, word, *words, moment=0, kill=None):
        at = [] if word in TIMELESS else ["--at", str(moment)]
        ended = self.ended([word, "--db", self.db, *at, *words], self.pace.get(word, 0.1), kill)
        if ended[0] in (0, 1):
            self.pace[word] = self.took
        return ended

    def line_of(self, command, kill=None):
        words = [command.file.stored(self.files)] if command.file else command.words
        return self.line(command.word, *words, moment=command.moment, kill=kill)

    def looked_by_lines(self, moment):
        """How the archive looks, by lines."""
        with open(f"{self.db}.list", "w", encoding="ascii") as it:
            it.write("waiting\nverdicts\n")
        return self.line("batch", f"{self.db}.list", moment=moment), self.line("show", "dists/box/Release")

    def line_given(self, command):
        """Gives a command in a line of its own."""
        if not command.kill:
            return Given(self.line_of(command))
        if not self.is_killed:
            before, first = self.looked_by_lines(command.moment), self.line_of(command)
            between, second = self.looked_by_lines(command.moment), self.line_of(command)
            return Given(first, second, b"", (before, between, self.looked_by_lines(command.moment)))
        status, partial, _ = ended = self.line_of(command, command.kill)
        if status >= 0:
            return Given(ended)
        self.kills["in a line"] += 1
        self.open_and_kill(command.kill, command.moment)
        look = self.looked_by_lines(command.moment)
        return Given(self.line_of(command), None, partial, (look,))

    def lines(self, stretch):
        return [self.line_given(it) for it in stretch.commands]

    # ---- lists

    def listed(self, command):
        """A command as a line of a list."""
        words = [command.file.stored(self.files)] if command.file else command.words
        return " ".join([{"mark": "put", "unreadable": "put", "guard": "waiting"}.get(command.word, command.word), *words])

    def attempt(self, stretch, start, end, kill=None, is_again=False):
        """Gives a part of a list."""
        commands = stretch.commands[start:end]
        words = [stretch.way, "--db", self.db, "--at", str(commands[0].moment)]
        if stretch.way == "put":
            words += [it.file.stored(self.files) for it in commands]
        else:
            with open(f"{self.db}.list", "w", encoding="utf-8") as it:
                it.write("".join(f"{self.listed(command)}\n" for command in commands))
            words.append(f"{self.db}.list")
        status, text, told = self.ended(words, self.pace.get(stretch.way, 0.001) * len(commands), kill)
        if status >= 0:
            self.pace[stretch.way] = self.took / len(commands)
        return Attempt(start, *divided(commands, text), status, told, is_again)

    def killed_list(self, stretch):
        """Gives a list, each time from the first command on that had no answer, until all have one."""
        attempts, start = [], 0
        for kill in [*stretch.kills, None]:
            attempts.append(self.attempt(stretch, start, None, kill))
            pass_guard(stretch, attempts[-1])
            start += len(attempts[-1].answers)
            self.kills["in a list"] += attempts[-1].status < 0
            if attempts[-1].status >= 0 or start == len(stretch.commands):
                break
            self.open_and_kill(kill, stretch.commands[0].moment)
        return attempts

    def list_again(self, stretch, starts):
        """Gives a list once, and a second time each part of it that another archive may have made twice: from one of these commands on."""
        attempts, at = [], 0
        for start in starts:
            if start < at:
                continue
            end = stretch.end_behind(start)
            attempts.append(self.attempt(stretch, at, end))
            attempts.append(self.attempt(stretch, start, end, is_again=True))
            at = end
        return attempts + ([self.attempt(stretch, at, None)] if at < len(stretch.commands) else [])

    # ---- requests

    def serve(self, moment, count):
        """Starts `serve`. The time up to its first answer is printed later."""
        with open(f"{self.db}.moment", "w", encoding="ascii") as it:
            it.write(f"{moment}\n")
        self.begun = time.monotonic()
        self.serving = Serving(self.db, count, "--moments", f"{self.db}.moment", at=str(moment), program=self.program)

    def stop(self):
        self.serving.__exit__()

    def open_and_kill(self, kill, moment):
        """Kills processes that open the archive."""
        for number in range(kill.openings):
            self.serve(moment, MANY)
            time.sleep(self.opening * (kill.share + 0.3 * number) / (1 + number))
            self.stop()
            self.kills["in an opening"] += 1

    def go_on_to(self, moment):
        """Lets the next connection have a moment."""
        with open(f"{self.db}.next", "w", encoding="ascii") as it:
            it.write(f"{moment}\n")
        os.replace(f"{self.db}.next", f"{self.db}.moment")

    def start_again(self, kill, moment):
        self.stop()
        self.open_and_kill(kill, moment)
        self.serve(moment, MANY)

    def looked(self):
        """How the archive looks, by requests."""
        return tuple(asked(self.serving, it) for it in LOOKS)

    def struck(self, command):
        """Gives a command whose request is cut off by a kill, and gives it again."""
        request, kill = request_of(command), command.kill
        client = self.serving.connected()
        with contextlib.suppress(ConnectionResetError, BrokenPipeError):
            client.sendall(request[: max(1, int(kill.sent * len(request)))])
        time.sleep(kill.seconds)
        self.serving.kill(signal.SIGKILL)
        partial = rest(client)
        self.kills["in a request"] += 1
        self.start_again(kill, command.moment)
        look = self.looked()
        return Given(answered(self.serving, command), None, partial, (look,))

    def request_given(self, command):
        """Gives a command by a request."""
        kill = command.kill
        if not kill or kill.is_between and not self.is_killed:
            return Given(answered(self.serving, command))
        if not self.is_killed:
            before, first = self.looked(), answered(self.serving, command)
            between, second = self.looked(), answered(self.serving, command)
            return Given(first, second, b"", (before, between, self.looked()))
        if not kill.is_between:
            return self.struck(command)
        self.kills["between requests"] += 1
        self.start_again(kill, command.moment)
        return Given(answered(self.serving, command))

    def connections(self, stretch):
        """The number of connections of a server that is not killed: one for each command, those that look, and more if a command is given
        twice."""
        twice = sum(it.kill is not None and not it.kill.is_between for it in stretch.commands)
        return len(LOOKS) + len(stretch.commands) + twice * (3 * len(LOOKS) + 1)

    def requests(self, stretch):
        """Gives commands by requests. The first answer is how the archive looked before."""
        moment = stretch.commands[0].moment
        self.serve(moment, MANY if self.is_killed else self.connections(stretch))
        try:
            given = [Given(self.looked())]
            self.opening = time.monotonic() - self.begun
            for command in stretch.commands:
                if command.moment != moment:
                    moment = command.moment
                    self.go_on_to(moment)
                given.append(self.request_given(command))
            if not self.is_killed and self.serving.ended(LONG) != (0, "", ""):
                raise Difference(f"`serve` said {self.serving.said()}")
        finally:
            self.stop()
        self.kills["between requests"] += self.is_killed
        return given
