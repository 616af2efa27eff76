"""Gives an archive a million commands and kills it again and again.

    python3 -m tests.soak [ARCHIVE] [--folder F] [--commands N] [--seed S] [--each N]

The commands are drawn by chance, good ones and hostile ones: files in any order, cut off, repeated or wrong, runs, copies, promotions,
removals and cleanings, at moments that go on. They go to `serve`, to `batch`, to `put` of several files and to lines of their own. The
processes of one archive are killed by SIGKILL between commands and within them, and what had no answer is given again. Another archive
gets the same without kills. A command that was killed was done or not: given again it is answered as the other archive answers it the
first time, or exactly as it answers it the second time, where it was done. All other answers are the same in both. What is known from
outside of deliveries, runs, cleanings and lists (soak_known.py) has to be there, too. Behind each 10,000 commands (--each) all that both
show is looked at, byte for byte, and the rows of both files by SQLite.

A line is printed then, and all is kept in the folder: begun again with the same words it goes on there. At the first difference it says
where it is and what was answered, leaves both archives in the folder, and ends with status 1. The same words then give the same commands
again, from the last line on. Each 100,000 commands have archives of their own. The program is that of program.py, or is named."""
import argparse
import collections
import concurrent.futures
import contextlib
import dataclasses
import os
import pickle
import shutil
import signal
import sqlite3
import subprocess
import sys
import time
from typing import Optional

from tests import soak_commands, soak_files, soak_known
from tests.program import PROGRAM
from tests.soak_commands import PER_ARCHIVE, UNCOUNTED, Drawing
from tests.soak_known import Known
from tests.soak_ways import MANY, Difference, Side

# The archives: the one that is killed, and the other.
NAMES = ("killed", "whole")


@dataclasses.dataclass
class State:
    """How far it is, and what was counted so far."""

    place: int = 0
    moment: int = soak_commands.BEGINNING
    known: Optional[Known] = None
    seconds: float = 0
    commands: collections.Counter = dataclasses.field(default_factory=collections.Counter)
    answers: collections.Counter = dataclasses.field(default_factory=collections.Counter)
    kills: collections.Counter = dataclasses.field(default_factory=collections.Counter)
    found: collections.Counter = dataclasses.field(default_factory=collections.Counter)


def remove_database(path):
    for end in ("", "-wal", "-shm"):
        with contextlib.suppress(FileNotFoundError):
            os.unlink(f"{path}{end}")


def copy_database(path, target):
    """Copies a database, with the log beside it if there is one."""
    remove_database(target)
    for end in ("", "-wal"):
        with contextlib.suppress(FileNotFoundError):
            shutil.copy(f"{path}{end}", f"{target}{end}")


# ---- one archive beside the other


def expect(is_so, command, what, *answers):
    """Ends the run if something is not so."""
    if not is_so:
        told_too = "".join(f"\n  {it!r:.2000}" for it in answers)
        raise Difference(f"{command}: {what}{told_too}")


def compare_killed(command, killed, whole, found):
    """Checks a command that was killed: the state after the kill is that before or that after the command, and the answer goes
    with it."""
    before, between, behind = whole.looks
    first, second = whole.first, whole.second
    look, partial = killed.looks[0], killed.partial
    expect(between == behind, command, "given twice it is not as given once", between, behind)
    expect(look in (before, between), command, "behind a kill it is neither as before nor as done", look, before, between)
    whole_reply = first[1] if isinstance(first, tuple) else first
    expect(whole_reply.startswith(partial), command, "what came before a kill is not of the answer", partial, first)
    is_as_done = look == between and killed.first == second
    is_as_undone = look == before and not partial and killed.first == first
    expect(is_as_done or is_as_undone, command, "given again behind a kill", killed.first, "the other archive answered", first, second)
    found["done or not" if is_as_done and is_as_undone else "done" if is_as_done else "not done"] += 1


def compare_given(commands, killed, whole, state):
    """Commands that were given one by one."""
    for command, one, other in zip(commands, killed, whole):
        if one.looks:
            compare_killed(command, one, other, state.found)
        else:
            expect(one.first == other.first, command, "answered", one.first, other.first)
        for answer in (other.first, *([other.second] if other.second is not None else [])):
            state.known.expect(command, answer)


def compare_attempt(stretch, attempt, first, second, state):
    """Checks the answers of a list from one command on: up to some command after a kill as if given twice, and then as if given
    once."""
    is_repeat, may_be_done = attempt.start > 0 or attempt.is_again, True
    end = stretch.end_behind(attempt.start) if is_repeat else 0
    for number, answer in enumerate(attempt.answers, attempt.start):
        once, again = first[number], second.get(number) if number < end and may_be_done else None
        if answer is None:
            continue
        if again is not None and answer == again != once:
            state.found["done"] += 1
            continue
        expect(answer == once, stretch.commands[number], "answered in a list", answer, once, again)
        if again is not None and again != once:
            may_be_done = False
            state.found["not done"] += 1


def compare_attempts(stretch, killed, first, second, state):
    """All attempts at a list. A command whose lines came in part was done."""
    done = None
    for number, attempt in enumerate(killed):
        command = stretch.commands[attempt.start]
        if attempt.answers and attempt.start == done:
            expect(attempt.answers[0] == second[done], command, "printed in part, and given again", attempt.answers[0], second[done])
        compare_attempt(stretch, dataclasses.replace(attempt, is_again=number > 0), first, second, state)
        if attempt.partial:
            done = attempt.start + len(attempt.answers)
            allowed = [it[done] for it in (first, second) if done in it]
            expect(any(it.startswith(attempt.partial) for it in allowed), stretch.commands[done], "cut off", attempt.partial, *allowed)


def compare_lists(stretch, killed, whole, state):
    """A list that was killed, and its parts that were given again."""
    first, second = {}, {}
    for attempt in whole:
        held = second if attempt.is_again else first
        held.update(enumerate(attempt.answers, attempt.start))
        for command, answer in zip(stretch.commands[attempt.start:], attempt.answers):
            state.known.expect(command, answer)
        expect(not attempt.partial, stretch.way, "printed too much", attempt.partial)
    expect(len(first) == len(stretch.commands), stretch.way, "printed too little", len(first), len(stretch.commands))
    expect(sum(len(it.answers) for it in killed) == len(first), stretch.way, "printed too little", killed[-1].partial)
    compare_attempts(stretch, killed, first, second, state)
    if len(killed) == 1 and killed[0].status >= 0:
        expect((killed[0].status, killed[0].told) == (whole[0].status, whole[0].told), stretch.way, "ended", killed[0], whole[0])


class Pair:
    """Two archives, and all that they are given."""

    def __init__(self, words, state, pool):
        self.words, self.state, self.pool = words, state, pool
        self.work = f"{words.folder}/work"
        self.sides = [Side(words.archive, self.work, name, f"{self.work}/files", name == NAMES[0]) for name in NAMES]

    def both(self, call):
        """Does the same with both at once."""
        made = [self.pool.submit(call, it) for it in self.sides]
        concurrent.futures.wait(made)
        return [it.result() for it in made]

    def make(self):
        """Makes both archives anew."""
        keep, valid = soak_files.DAYS[self.state.place // PER_ARCHIVE % len(soak_files.DAYS)]
        with open(f"{self.work}/box.conf", "w", encoding="ascii") as it:
            it.write(soak_files.CONFIGURATION.format(keep=keep, valid=valid))
        self.state.moment, self.state.known = soak_commands.BEGINNING, Known(keep)
        for side in self.sides:
            remove_database(side.db)
            expect(side.line("init", f"{self.work}/box.conf", moment=self.state.moment) == (0, b"", b""), "init", "is not done")

    def give(self, stretch):
        """Gives a stretch to both, and compares what they answer."""
        killer, other = self.sides
        if stretch.way in ("batch", "put"):
            if stretch.kills:
                killed = killer.killed_list(stretch)
                whole = other.list_again(stretch, [it.start for it in killed[1:]])
            else:
                killed, whole = self.both(lambda side: [side.attempt(stretch, 0, None)])
            return compare_lists(stretch, killed, whole, self.state)
        killed, whole = self.both(lambda it: it.requests(stretch) if stretch.way == "serve" else it.lines(stretch))
        if stretch.way == "serve":
            expect(killed[0] == whole[0], "before these requests", "the archives show", killed[0].first, whole[0].first)
            killed, whole = killed[1:], whole[1:]
        return compare_given(stretch.commands, killed, whole, self.state)

    def looks(self):
        """Paths of the pool at which something stands or nothing."""
        step, paths = self.state.place % PER_ARCHIVE // soak_commands.PACE, set()
        for number in range(soak_files.SOURCES):
            source = soak_files.Source(number)
            front = source.name[:4] if source.name.startswith("lib") else source.name[0]
            for it in soak_files.upload_of(number, max(0, step - number % 5), "whole"):
                paths.add(f"pool/{source.component}/{front}/{source.name}/{it.name}")
        return paths

    def rows(self, side):
        """The rows of an archive, read by SQLite from a copy. An SQLite without STRICT tables reads none."""
        if sqlite3.sqlite_version_info < (3, 37):
            return {}
        copy_database(side.db, f"{side.db}.copy")
        with contextlib.closing(sqlite3.connect(f"{side.db}.copy")) as held:
            expect(held.execute("PRAGMA integrity_check").fetchall() == [("ok",)], side.db, "SQLite finds it broken")
            return {name: held.execute(statement).fetchall() for name, statement in soak_known.ROWS.items()}

    def shown(self, side):
        side.serve(self.state.moment, MANY)
        try:
            return {"queue": side.looked(), **soak_known.shown(side.serving, self.looks())}
        finally:
            side.stop()

    def look(self):
        """Looks at all that both show and store."""
        for what, (one, other) in (("show", self.both(self.shown)), ("store", self.both(self.rows))):
            names = [it for it in {**one, **other} if one.get(it) != other.get(it)]
            expect(one == other, "at the end", f"the archives do not {what} the same at {names}")
            last = other
        if last:
            soak_known.expect_arrivals(self.state.known, last["arrivals"])


# ---- from one line to the next


def end_of(state, words):
    """The number of commands after which the next line is printed."""
    return min((state.place // words.each + 1) * words.each, words.commands, (state.place // PER_ARCHIVE + 1) * PER_ARCHIVE)


def give_some(pair, words):
    """Gives the commands up to the next line."""
    state, start = pair.state, time.monotonic()
    if state.place % PER_ARCHIVE == 0:
        pair.make()
    end, drawing = end_of(state, words), Drawing(words.seed, state.place, state.moment)
    while state.place < end:
        stretch = drawing.stretch(end - state.place)
        pair.give(stretch)
        state.place, state.moment = drawing.place, drawing.moment
        state.commands.update(f"{it.word} by {stretch.way}" for it in stretch.commands if it.word not in UNCOUNTED)
    pair.look()
    for side in pair.sides:
        state.kills.update(side.kills)
        side.kills.clear()
    state.answers.update(state.known.counted)
    state.known.counted.clear()
    state.seconds += time.monotonic() - start


def keep(pair, words):
    """Keeps both archives and the state, so that it may go on here."""
    folder = f"{words.folder}/kept"
    shutil.rmtree(f"{folder}.new", ignore_errors=True)
    os.makedirs(f"{folder}.new")
    for side in pair.sides:
        copy_database(side.db, f"{folder}.new/{os.path.basename(side.db)}")
    with open(f"{folder}.new/state", "wb") as it:
        pickle.dump((words.seed, words.each, pair.state), it)
    shutil.rmtree(folder, ignore_errors=True)
    os.rename(f"{folder}.new", folder)


def begun(words):
    """The state from which it goes on, with both archives as they were then."""
    work, folder = f"{words.folder}/work", f"{words.folder}/kept"
    shutil.rmtree(work, ignore_errors=True)
    os.makedirs(f"{work}/files")
    if not os.path.isdir(folder):
        folder = f"{folder}.new"
    if not os.path.exists(f"{folder}/state"):
        return State()
    with open(f"{folder}/state", "rb") as it:
        seed, each, state = pickle.load(it)
    if (seed, each) != (words.seed, words.each):
        sys.exit(f"soak: {words.folder} is of --seed {seed} --each {each}")
    for name in os.listdir(folder):
        if name != "state":
            shutil.copy(f"{folder}/{name}", work)
    return state


def report(state):
    """Prints what was counted."""
    tables = {"commands": state.commands, "answers": state.answers, "kills": state.kills, "killed commands": state.found}
    for title, counted in tables.items():
        print(f"{title}: {sum(counted.values()):,}")
        for kind, count in sorted(counted.items()):
            print(f"  {count:>9,} {kind}")


def words_of(line):
    parser = argparse.ArgumentParser(prog="python3 -m tests.soak", description=__doc__, formatter_class=argparse.RawDescriptionHelpFormatter)
    parser.add_argument("archive", nargs="?", default=PROGRAM)
    parser.add_argument("--folder", default="/tmp/soak")
    parser.add_argument("--commands", type=int, default=1_000_000)
    parser.add_argument("--seed", type=int, default=1)
    parser.add_argument("--each", type=int, default=10_000)
    return parser.parse_args(line)


def end_by_signal(*_):
    """Ends the run at once, with all that it started."""
    raise SystemExit(1)


def main(line=None):
    words = words_of(line)
    if not os.access(words.archive, os.X_OK):
        sys.exit(f"soak: there is no program {words.archive}")
    signal.signal(signal.SIGTERM, end_by_signal)
    state = begun(words)
    with concurrent.futures.ThreadPoolExecutor(2) as pool:
        pair = Pair(words, state, pool)
        while state.place < words.commands:
            try:
                give_some(pair, words)
            except (Difference, OSError, subprocess.SubprocessError) as why:
                print(f"soak: --seed {words.seed} --each {words.each}, behind {state.place:,} commands: {why}", flush=True)
                return 1
            keep(pair, words)
            shutil.rmtree(f"{pair.work}/files", ignore_errors=True)
            print(f"{state.place:,} commands, {sum(state.kills.values()):,} kills, {state.seconds:,.0f} s", flush=True)
    report(state)
    return 0


if __name__ == "__main__":
    sys.exit(main())
