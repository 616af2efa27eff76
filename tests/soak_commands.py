"""The commands that soak.py gives, drawn by chance: the same seed gives the same ones, and they hang on no answer.

They come in stretches, each given in one way: requests to `serve`, a list to `batch`, files to one `put`, or lines of their own. A kill is
drawn with them. When it falls, and so how much was done by then, is up to the machine."""
import dataclasses
import random
from typing import Optional

from tests import soak_files, test_hostile
from tests.soak_files import File

# The number of commands that an archive gets before another is made, and the number after which the versions of the
# sources rise by one.
PER_ARCHIVE, PACE = 100_000, 1000

# The moment of an archive's first command, the seconds that a command may take, and those that sometimes pass at once.
BEGINNING, GOING_ON, LEAP = 1_467_435_600, 400, 864_000

# How often each way and each command of it is taken, by weights.
WAYS = {"serve": 36, "batch": 30, "put": 12, "line": 22}
COMMANDS = {"put": 62, "run": 9, "copy": 6, "promote": 1, "remove": 3, "clean": 2.5, "waiting": 2, "verdicts": 0.3}
SHARES = {
    "serve": {**COMMANDS, "show": 8, "cut": 6, "hostile": 4},
    "batch": {**COMMANDS, "unreadable": 1},
    "put": {"put": 1},
    "line": {**COMMANDS, "put": 20, "show": 6, "promote": 5},
}

# The number of commands of a stretch of each way, and how often a list, a line, a request and the time between two are struck by a
# kill.
LENGTHS = {"serve": (100, 400), "batch": (100, 600), "put": (2, 12), "line": (2, 6)}
KILLED = {"batch": 0.5, "put": 0.5, "line": 0.2, "serve": 0.006, "between": 0.002}

# The commands that are answered by any number of lines, even none. A list makes and prints what comes before such a command at the latest
# together with it. In a list that is killed, these commands and others that change something have a guard after them, which asks what
# waits: what follows the guard is begun only when all before it is printed. So what had no line and may be done is a command and the
# files before it.
WITH_LINES = {"run", "promote", "waiting", "verdicts", "guard"}
GUARDED = {"run", "promote", "waiting", "verdicts", "copy", "remove", "clean"}

# Words of a list that are no command to be counted.
UNCOUNTED = {"mark", "guard"}


@dataclasses.dataclass(frozen=True)
class Kill:
    """A SIGKILL: between two commands, or within one, after a share of its bytes. Within a request it falls some seconds after them,
    within a list or a line after a share of the time that it takes. Then this number of processes is killed while they open the
    archive."""

    is_between: bool
    sent: float
    seconds: float
    share: float
    openings: int


@dataclasses.dataclass(frozen=True)
class Command:
    """A command: what it does, with which words or which file, at which moment. A mark is a file with a bad name, whose line shows
    where the lines of the command before it end."""

    word: str
    words: tuple = ()
    file: Optional[File] = None
    moment: int = 0
    kill: Optional[Kill] = None

    def __str__(self):
        return " ".join([self.word, *map(str, self.words), *([self.file.name] if self.file else []), f"at {self.moment}"])


@dataclasses.dataclass(frozen=True)
class Stretch:
    """Commands that are given in one way. If it is a list that is killed, `ends` says where its guards end."""

    way: str
    commands: tuple
    kills: tuple = ()
    ends: tuple = ()

    def count(self):
        return sum(it.word not in UNCOUNTED for it in self.commands)

    def end_behind(self, start):
        """The first end after a command."""
        return next((it for it in self.ends if it > start), len(self.commands))


class Drawing:
    """The commands from one place on, one stretch after the other."""

    def __init__(self, seed, place, moment):
        self.chance = random.Random(f"{seed} {place}")
        self.place, self.moment = place, moment
        self.waiting, self.marks = [], 0

    def step(self):
        chosen = self.chance.choices((-2, -1, 0, 1), (1, 2, 5, 1))[0]
        return max(0, self.place % PER_ARCHIVE // PACE + chosen)

    def upload(self):
        """An upload of the present versions."""
        number, step = self.chance.randrange(soak_files.SOURCES), self.step()
        return soak_files.upload_of(number, step, soak_files.form_of(number, step, self.chance.random() < 0.25))

    def good_file(self):
        """A file of one of several uploads, whose files come in any order; some never come, and some twice."""
        while len(self.waiting) < 25:
            files = self.upload()
            self.waiting += [it for it in files if self.chance.random() < 0.95]
            self.waiting += [it for it in files if self.chance.random() < 0.15]
        return self.waiting.pop(self.chance.randrange(len(self.waiting)))

    def file(self):
        """A file to deliver, which is wrong at times."""
        chance, file = self.chance, self.good_file()
        kind = chance.choices(("good", "wrong", "ill_named", "again_named", "spoilt"), (80, 8, 4, 4, 4))[0]
        if kind == "good":
            return file
        if kind in ("again_named", "spoilt"):
            file = self.upload()[-1]
        return getattr(soak_files, kind)(file, chance)

    def name(self):
        """The name of a source or a package, or an unused one."""
        source = soak_files.Source(self.chance.randrange(soak_files.SOURCES))
        return self.chance.choices((source.name, f"{source.name}-data", "nosuch"), (85, 10, 5))[0]

    def path(self):
        """The path of an index, of a file of the pool, or of nothing."""
        suite = self.chance.choice([*soak_files.INDICES])
        name = self.good_file().name
        source = name.partition("_")[0].removesuffix("-data")
        front = source[:4] if source.startswith("lib") else source[0]
        paths = [f"dists/{suite}/{it}" for it in ("Release", *soak_files.INDICES[suite])]
        pool = [f"pool/{it}/{front}/{source}/{name}" for it in ("main", "contrib")]
        return self.chance.choice([*paths, *pool, "dists/moon/Release"])

    def suites(self, count):
        return self.chance.choices(["box", "lab", "old", "moon"], [45, 30, 20, 2], k=count)

    def words(self, word, way):
        """The words after the word of a command."""
        if word == "copy":
            return *self.suites(2), self.name()
        if word == "promote":
            named = {self.name() for _ in range(self.chance.randrange(4))} if way == "line" else ()
            return *self.suites(2), *sorted(named)
        if word == "remove":
            return *self.suites(1), self.name()
        if word == "cut":
            return self.chance.random(), self.chance.choice(("waits", "goes", "resets"))
        if word == "hostile":
            return self.chance.choice(test_hostile.HOSTILE).__name__, self.chance.randrange(1 << 32)
        return {"show": lambda: (self.path(),), "unreadable": lambda: ("nosuch.deb",)}.get(word, tuple)()

    def kill(self, way):
        """A kill within what is given in this way, or between two requests, or no kill."""
        chance = self.chance
        drawn = chance.random()
        is_between = way == "serve" and KILLED[way] <= drawn < KILLED[way] + KILLED["between"]
        sent = chance.choice((1, 1, 1, chance.random()))
        seconds = chance.random() * chance.choice((0.0005, 0.002, 0.01))
        kill = Kill(is_between, sent, seconds, 1.1 * chance.random() ** 0.5, int(chance.expovariate(1)))
        return kill if is_between or drawn < KILLED[way] else None

    def go_on(self, most):
        """Lets some time pass, and sometimes much."""
        self.moment += self.chance.randrange(most + 1) + LEAP * (self.chance.random() * 3000 * GOING_ON < most)

    def command(self, way):
        word = self.chance.choices([*SHARES[way]], [*SHARES[way].values()])[0]
        file = self.file() if word in ("put", "cut") else None
        return Command(word, self.words(word, way), file, self.moment, None)

    def requests(self, way, count):
        """Commands that are given one by one, with a kill at some of them. Moments go on at some of them."""
        commands = []
        for _ in range(count):
            if self.chance.random() < 0.3:
                self.go_on(3 * GOING_ON)
            command, kill = self.command(way), self.kill(way)
            if kill and command.word in ("cut", "hostile"):
                kill = dataclasses.replace(kill, is_between=True)
            commands.append(dataclasses.replace(command, kill=kill))
        return Stretch(way, tuple(commands))

    def mark(self):
        self.marks = (self.marks + 1) % 1000
        return Command("mark", (), File(f"~{self.marks}", b"", "Q1"), self.moment)

    def list(self, way, count):
        """Commands that are given at once, all at one moment."""
        self.go_on(count * GOING_ON)
        kills = [it for it in (self.kill(way) for _ in range(3)) if it] if self.kill(way) else []
        commands, ends = [], []
        for _ in range(count):
            commands.append(self.command(way))
            word = commands[-1].word
            if word in WITH_LINES:
                commands.append(self.mark())
            if kills and word in GUARDED:
                commands.append(Command("guard", (), None, self.moment))
                ends.append(len(commands))
                commands.append(self.mark())
        return Stretch(way, tuple(commands), tuple(kills), tuple(ends))

    def stretch(self, most):
        """The next stretch, of at most about this number of commands."""
        way = self.chance.choices([*WAYS], [*WAYS.values()])[0]
        count = min(self.chance.randrange(*LENGTHS[way]), most)
        made = (self.requests if way in ("serve", "line") else self.list)(way, count)
        self.place += made.count()
        return made
