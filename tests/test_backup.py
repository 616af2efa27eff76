"""Tests of bin/backup. A stand-in has the database as the archive has it, and writes one number after the other to it and to its log, at once for whoever
looks between two steps. If the program of program.py is there, `serve` has the database too, while a client puts files, and backups are killed at random
moments."""
import contextlib
import errno
import fcntl
import io
import os
import pathlib
import random
import shutil
import signal
import stat
import struct
import subprocess
import sys
import tempfile
import threading
import time
import unittest
import unittest.mock

from tests.program import DATA, LONG, NAMES, PROGRAM, ROOT, SOON, Lines, Serving, get, mounted, put_of, status_of
from tests.snippets import Room
from tests.tools import tool
from tests.wants import main, needs_file, needs_root

TOOL = f"{ROOT}/bin/backup"
BACKUP = tool("bin/backup")
# The number of backups of a server that are killed, the number of seconds for them, and the least number of them, for which there is more time.
KILLS, KILLING, LEAST = 200, 60, 10
NOBODY = 65534
STAMP = r"\d{8}T\d{6}Z(-\d+)?"

# Has a database as the archive has it, and writes numbers to both files until it is ended. It answers each line with the number that is in both.
HOLDER = """
import fcntl, os, select, struct, sys
files = [os.open(sys.argv[1] + end, os.O_RDWR | os.O_CREAT, 0o600) for end in ("", "-wal")]
for it in files:
    fcntl.fcntl(it, fcntl.F_OFD_SETLK, struct.pack("hhqqi4x", fcntl.F_WRLCK, os.SEEK_SET, 1 << 30, 512, 0))
number = 0
while True:
    number += 1
    for it in files:
        os.pwrite(it, b"%016d" % number, 0)
    if number == 1 or select.select([0], [], [], 0)[0]:
        if number > 1 and not os.read(0, 1):
            break
        print(number, flush=True)
"""

# Begins what its words say, and waits for it as su, runuser and sudo do: it stops itself if that is stopped, and ends with it. Asked to end, it has that end.
WAITER = """
import os, signal, sys
child = os.fork()
if not child:
    if user := int(sys.argv[1]):
        os.setgid(user)
        os.setuid(user)
    os.execv(sys.argv[2], sys.argv[2:])
signal.signal(signal.SIGTERM, lambda *_: os.kill(child, signal.SIGTERM))
while os.WIFSTOPPED(os.waitpid(child, os.WUNTRACED)[1]):
    os.kill(os.getpid(), signal.SIGSTOP)
    os.kill(child, signal.SIGCONT)
"""

# In place of the archive: it opens what the stand-in wrote, if the log is of the same step as the database, or of the one before. It says of each that it
# was opened.
OPENS = """#!/bin/sh
[ "$1 $2" = "verdicts --db" ] || exit 2
database=$(head -c 16 "$3") log=$(head -c 16 "$3-wal")
[ "$((1$database - 1$log))" -le 1 ] && [ "$((1$database - 1$log))" -ge 0 ] && exit 0
echo "archive: K4" >&2
exit 1
"""


class Holder:
    """The stand-in, which has a database."""

    def __init__(self, db, *before, python=sys.executable, **more):
        words = [*before, python, "-c", HOLDER, db]
        self.process = subprocess.Popen(words, stdin=subprocess.PIPE, stdout=subprocess.PIPE, **more)
        self.process.stdout.readline()

    def __enter__(self):
        return self

    def __exit__(self, *_):
        self.process.kill()
        self.process.communicate()

    def number(self):
        """The number that it has written to both files, which it reports at once if it is not held."""
        self.process.stdin.write(b"x")
        self.process.stdin.flush()
        return int(self.process.stdout.readline())

    def state(self):
        """The letter of its state."""
        return state_of(self.process.pid)


def state_of(number):
    """The letter of a process's state, as T if it is stopped."""
    return pathlib.Path(f"/proc/{number}/stat").read_text(encoding="ascii").rpartition(") ")[2][0]


def children_of(number):
    """The numbers of the processes that a process with one thread has begun."""
    return [int(it) for it in pathlib.Path(f"/proc/{number}/task/{number}/children").read_text(encoding="ascii").split()]


def below(number):
    """The number of a process, and those of what it has begun, each after its parent."""
    return [number, *(it for child in children_of(number) for it in below(child))]


def told(*lines):
    """What backup says on standard error."""
    return "".join(f"backup: {line}\n" for line in lines)


def wait_until(is_so, seconds=SOON):
    """Waits until something is so, and answers whether it is."""
    end = time.monotonic() + seconds
    while not (found := is_so()) and time.monotonic() < end:
        time.sleep(0.002)
    return found


class Case(unittest.TestCase):
    """A folder with a database, one for backups, and a program that opens these."""

    def setUp(self):
        room = tempfile.TemporaryDirectory()
        self.addCleanup(room.cleanup)
        self.room = pathlib.Path(room.name)
        self.db, self.copies = str(self.room / "box.db"), self.room / "copies"
        self.copies.mkdir()
        (self.room / "bin").mkdir()
        self.opens(OPENS)
        self.variables = {**os.environ, "PATH": f"{self.room}/bin:{os.environ['PATH']}", "LC_ALL": "C.UTF-8"}

    def opens(self, text):
        """Puts a program in place of the archive."""
        path = self.room / "bin/archive"
        path.write_text(text)
        path.chmod(0o755)

    def write(self, *numbers):
        """Writes a database and its log, as the stand-in does."""
        for end, number in zip(("", "-wal"), numbers):
            pathlib.Path(self.db + end).write_bytes(b"%016d" % number)

    def started(self, *words, **more):
        """A backup that runs."""
        streams = {"stdin": subprocess.DEVNULL, "stdout": subprocess.PIPE, "stderr": subprocess.PIPE, "text": True}
        return subprocess.Popen([sys.executable, TOOL, *map(str, words)], **{**streams, "cwd": self.room, "env": self.variables, **more})

    def run_it(self, *words, **more):
        """Runs a backup. Answers its status, and both outputs."""
        process = self.started(*words, **more)
        return (*process.communicate(timeout=LONG), process.returncode)[::-1]

    def backup(self, *words, **more):
        """A backup that is made, and the path of the copy."""
        status, said, printed = self.run_it(*(words or (self.db, self.copies)), **more)
        self.assertEqual((status, said), (0, ""))
        self.assertRegex(printed, rf"\A.*/{STAMP}/.*\n\Z")
        return pathlib.Path(self.room, printed.rstrip("\n"))

    def by_nobody(self):
        """Runs a backup by a user who has no right to anything, and has the programs in a folder. Answers as `run_it` does."""
        self.room.chmod(0o755)
        for it in ("backup", "with_sidecars"):
            shutil.copy(f"{ROOT}/bin/{it}", self.room / "bin")
        words = ["/usr/bin/python3", self.room / "bin/backup", self.db, self.copies]
        ran = subprocess.run(words, env=self.variables, cwd="/", capture_output=True, text=True, check=False, timeout=LONG, user=NOBODY, group=NOBODY)
        return ran.returncode, ran.stderr, ran.stdout

    def in_process(self, *words):
        """Runs a backup in this process, in which a test may put something else in place of a part. Answers its status, and what it says."""
        told_here = io.StringIO()
        with unittest.mock.patch.dict(os.environ, self.variables), contextlib.redirect_stderr(told_here), contextlib.redirect_stdout(io.StringIO()):
            handlers = {it: signal.getsignal(it) for it in (signal.SIGHUP, signal.SIGTERM)}
            nice = unittest.mock.patch.object(os, "nice")
            with nice:
                try:
                    status = BACKUP.main(list(map(str, words)))
                finally:
                    for it, handler in handlers.items():
                        signal.signal(it, handler)
        return status, told_here.getvalue()

    def left(self):
        """What is in the folder of backups, without the folder in which they are made, which has nothing but its lock."""
        room = self.copies / BACKUP.ROOM
        if room.exists():
            self.assertEqual(os.listdir(room), ["lock"])
        return sorted(it for it in os.listdir(self.copies) if it != BACKUP.ROOM)


class Copies(Case):
    """What is copied."""

    def test_a_database_that_nobody_has(self):
        self.write(7, 7)
        os.chmod(self.db, 0o640)
        umask = os.umask(0o027)
        self.addCleanup(os.umask, umask)
        path = self.backup()
        self.assertEqual((path.read_bytes(), pathlib.Path(f"{path}-wal").read_bytes()), (b"%016d" % 7, b"%016d" % 7))
        self.assertEqual([stat.S_IMODE(it.stat().st_mode) for it in (path, path.parent)], [0o640, 0o750])
        self.assertEqual(self.left(), [path.parent.name])
        self.assertLess(abs(time.mktime(time.strptime(path.parent.name[:16], "%Y%m%dT%H%M%SZ")) - time.timezone - time.time()), 60)

    def test_a_link_to_it_and_one_without_a_log(self):
        self.opens("#!/bin/sh\nexit 0\n")
        self.write(7)
        (self.room / "link").symlink_to("box.db")
        (self.room / "folders").symlink_to("copies")
        path = self.backup("link", "folders")
        self.assertEqual(str(path.parent.parent), f"{self.room}/folders")
        self.assertEqual(os.listdir(path.parent), ["box.db"])

    def test_two_of_one_second_have_names_of_their_own(self):
        self.write(7, 7)
        made = {self.backup() for _ in range(4)}
        self.assertEqual((len(made), len(self.left())), (4, 4))

    def test_a_database_that_another_process_has(self):
        with Holder(self.db) as holder:
            for _ in range(5):
                before = holder.number()
                path = self.backup()
                self.assertTrue(before <= int(path.read_bytes()) <= holder.number())
                self.assertNotEqual(holder.state(), "T")

    def test_a_large_one_is_copied_before_it_is_held(self):
        """One that changes meanwhile is copied while it is held."""
        with open(self.db, "wb") as it:
            it.truncate(BACKUP.LARGE + 1)
        with Holder(self.db) as holder, unittest.mock.patch.object(BACKUP, "SETTLED", 0.1):
            before = holder.number()
            self.assertEqual(self.in_process(self.db, self.copies), (0, ""))
            self.assertLess(before, holder.number())
        os.utime(self.db, (1, 1))
        time.sleep(0.2)
        copied = []
        with unittest.mock.patch.object(BACKUP, "SETTLED", 0.1), unittest.mock.patch.object(BACKUP, "copy_bytes", self.copying(copied)):
            self.assertEqual(self.in_process(self.db, self.copies), (0, ""))
        self.assertEqual(copied, [(BACKUP.LARGE + 1, True), (16, False)])
        for it in self.left():
            self.assertEqual((self.copies / it / "box.db").stat().st_size, BACKUP.LARGE + 1)

    def test_files_share_their_blocks_if_the_file_system_can_do_that(self):
        self.write(7, 7)
        with unittest.mock.patch.object(fcntl, "ioctl", lambda new, word, file: (word == 0x40049409) and os.pwrite(new, os.pread(file, 99, 0), 0)):
            with unittest.mock.patch.object(BACKUP, "copy_bytes") as copying:
                self.assertEqual(self.in_process(self.db, self.copies), (0, ""))
        self.assertFalse(copying.called)
        self.assertEqual((self.copies / self.left()[0] / "box.db").read_bytes(), b"%016d" % 7)

    def copying(self, copied):
        """Copies, and lists of how many bytes each was, and whether another process could have had the database meanwhile."""
        def go(file, new, end, real=BACKUP.copy_bytes):
            with open(self.db, "r+b") as it:
                copied.append((os.fstat(file).st_size, BACKUP.is_locked(it.fileno(), BACKUP.LOCKED)))
            real(file, new, end)
        return go

    def test_a_change_after_the_early_copy_is_not_lost(self):
        """The file is then copied once more."""
        with open(self.db, "wb") as it:
            it.truncate(BACKUP.LARGE)
        pathlib.Path(f"{self.db}-wal").write_bytes(b"%016d" % 5)

        def changed(*words, real=BACKUP.copied_early):
            early = real(*words)
            self.write(5)
            return early

        with unittest.mock.patch.object(BACKUP, "SETTLED", 0), unittest.mock.patch.object(BACKUP, "copied_early", changed):
            self.assertEqual(self.in_process(self.db, self.copies), (0, ""))
        self.assertEqual((self.copies / self.left()[0] / "box.db").read_bytes()[:16], b"%016d" % 5)

    def test_so_many_are_kept(self):
        self.write(7, 7)
        other = self.copies / "20200101T000000Z"
        other.mkdir()
        (other / "other.db").touch()
        (self.copies / "kept").mkdir()
        (self.copies / "20200101T000001Z").symlink_to("kept")
        (self.copies / "kept/box.db").touch()
        made = []
        for number in range(5):
            made.append(self.backup("--keep", 3, "box.db", "copies").parent.name)
            self.assertEqual(self.left(), sorted(["20200101T000000Z", "20200101T000001Z", "kept", *made[-3:]]), number)
        self.assertEqual(self.backup("--keep=1", "box.db", "copies").parent.name, [it for it in self.left() if (self.copies / it / "box.db").exists()][1])

    def test_one_that_cannot_be_removed(self):
        """The others are removed all the same."""
        self.write(7, 7)
        made, rename = [self.backup().parent.name for _ in range(3)], os.rename

        def refused(old, new):
            if pathlib.Path(old).name == made[0]:
                raise PermissionError(errno.EACCES, os.strerror(errno.EACCES), str(old))
            rename(old, new)

        with unittest.mock.patch.object(os, "rename", refused):
            self.assertEqual(self.in_process("--keep", "1", self.db, self.copies), (1, told(f"{self.copies}/{made[0]}: Permission denied")))
        self.assertEqual((self.left()[0], len(self.left())), (made[0], 2))

    def test_what_a_killed_one_left_is_removed(self):
        self.write(7, 7)
        left = self.copies / BACKUP.ROOM
        for it in ("new", "old"):
            (left / it).mkdir(parents=True)
            (left / it / "box.db").write_bytes(bytes(1000))
        path = self.backup()
        self.assertEqual(self.left(), [path.parent.name])


class Holds(Case):
    """What has the database goes on, whatever happens."""

    def while_held(self, act, *words, status=3):
        """Runs a backup in this process, with an act in place of copying, while the stand-in has the database. Answers what is said."""
        with Holder(self.db) as holder, unittest.mock.patch.object(BACKUP, "copy_bytes", lambda *_: act(holder)):
            said = self.in_process(*words, self.db, self.copies)
            holder.number()
            self.assertNotEqual(holder.state(), "T")
        self.assertEqual((said[0], self.left()), (status, []))
        return said[1]

    def test_it_is_held_while_both_are_copied(self):
        states = []
        self.opens("#!/bin/sh\nexit 1\n")
        self.while_held(lambda holder: states.append(holder.state()), status=1)
        self.assertEqual(states, ["T", "T"])

    def test_the_time_is_over(self):
        def act(holder):
            self.assertTrue(wait_until(lambda: holder.state() != "T"))
            raise BACKUP.Busy

        said = self.while_held(act, "--hold", 1)
        self.assertEqual(said, told(f"{self.db} was not copied within 1 seconds: give more by --hold"))
        said = self.while_held(lambda holder: wait_until(lambda: holder.state() != "T"), "--hold", 1)
        self.assertEqual(said, told(f"{self.db} was not copied within 1 seconds: give more by --hold"))

    def test_something_else_lets_it_go_on(self):
        said = self.while_held(lambda holder: holder.process.send_signal(signal.SIGCONT) or time.sleep(0.05))
        self.assertIn(said, (
            told(f"what has {self.db} was let go on by something else"),
            told(f"something writes to {self.db} that can't be held"),
        ))

    def test_a_copy_fails(self):
        def act(_):
            raise OSError(errno.ENOSPC, "No space left on device")

        said = self.while_held(act, status=1)
        self.assertEqual(said, told(f"{self.copies}/{BACKUP.ROOM}/new/box.db-wal: No space left on device"))

    def guard_of(self, number=None):
        """The number of the process that lets others go on, which is a child of a backup, or of this process."""
        [guard] = [it for it in children_of(number or os.getpid()) if HOLDER.encode() not in pathlib.Path(f"/proc/{it}/cmdline").read_bytes()]
        return guard

    def test_both_are_asked_to_end(self):
        """As systemd does with all processes of a service."""
        with Holder(self.db) as holder:
            process = self.stopped_backup(holder)
            for it in (self.guard_of(process.pid), process.pid):
                os.kill(it, signal.SIGTERM)
            self.assertEqual(holder.state(), "T")
            process.send_signal(signal.SIGCONT)
            self.assertTrue(wait_until(lambda: holder.state() != "T"))
            self.assertEqual(process.communicate(timeout=SOON)[1], "")
            self.assertEqual((process.returncode, self.left()), (128 + signal.SIGTERM, []))

    def test_the_second_process_is_killed(self):
        said = self.while_held(lambda _: os.kill(self.guard_of(), signal.SIGKILL))
        self.assertEqual(said, told(f"what has {self.db} was let go on by something else"))

    def test_the_second_process_is_stopped(self):
        with unittest.mock.patch.object(BACKUP, "ANSWER", 0.3):
            said = self.while_held(lambda _: os.kill(self.guard_of(), signal.SIGSTOP))
        self.assertEqual(said, told(f"what has {self.db} was let go on by something else"))

    def test_what_has_it_is_killed(self):
        with Holder(self.db) as holder:
            with unittest.mock.patch.object(BACKUP, "copy_bytes", lambda *_: holder.process.kill() or holder.process.wait()):
                status, _ = self.in_process(self.db, self.copies)
        self.assertEqual((status, self.left()), (3, []))

    def stopped_backup(self, holder, *words, **more):
        """A backup that is stopped while it holds the stand-in."""
        process = self.started_and_stopped(*words, **more)
        self.assertEqual(holder.state(), "T")
        return process

    def started_and_stopped(self, *words, **more):
        """A backup that is stopped while it holds what has the database."""
        script = (
            "import os, signal, sys, importlib.machinery, importlib.util\n"
            f"loader = importlib.machinery.SourceFileLoader('backup', {TOOL!r})\n"
            "it = importlib.util.module_from_spec(importlib.util.spec_from_loader('backup', loader)); loader.exec_module(it)\n"
            "def stop(*_):\n"
            "    it.copy_bytes = lambda *_: None\n"
            "    os.kill(os.getpid(), signal.SIGSTOP)\n"
            "it.copy_bytes = stop\n"
            "sys.exit(it.main(sys.argv[1:]))\n"
        )
        words = [sys.executable, "-c", script, *map(str, words), self.db, str(self.copies)]
        process = subprocess.Popen(words, env=self.variables, stdout=subprocess.PIPE, stderr=subprocess.PIPE, text=True, **more)
        self.addCleanup(process.communicate)
        self.addCleanup(process.kill)
        self.assertTrue(wait_until(lambda: state_of(process.pid) == "T"))
        return process

    def test_it_is_killed(self):
        """The next backup finds nothing in its way."""
        for number in (signal.SIGKILL, signal.SIGTERM, signal.SIGINT, signal.SIGHUP):
            with Holder(self.db) as holder:
                process = self.stopped_backup(holder)
                process.send_signal(number)
                process.send_signal(signal.SIGCONT)
                self.assertTrue(wait_until(lambda: holder.state() != "T"))
                holder.number()
                _, said = process.communicate(timeout=SOON)
                self.assertEqual((process.returncode, said), (-9, "") if number == signal.SIGKILL else (128 + number, ""))
                shutil.rmtree(self.backup().parent)
                self.assertEqual(self.left(), [])

    def test_it_is_stopped_itself(self):
        with Holder(self.db) as holder:
            process = self.started_and_stopped("--hold", 1)
            self.assertTrue(wait_until(lambda: holder.state() != "T"))
            process.send_signal(signal.SIGCONT)
            self.assertEqual(process.communicate(timeout=SOON)[1], told(f"{self.db} was not copied within 1 seconds: give more by --hold"))
            self.assertEqual((process.returncode, self.left()), (3, []))

    def test_what_was_stopped_before_is_left_so(self):
        with Holder(self.db) as holder:
            number = holder.number()
            holder.process.send_signal(signal.SIGSTOP)
            self.assertTrue(wait_until(lambda: holder.state() == "T"))
            status, said, printed = self.run_it("box.db", "copies")
            self.assertEqual((status, said), (0, told(f"process {holder.process.pid} has {self.db}, was stopped before, and is left so")))
            self.assertEqual(holder.state(), "T")
            self.assertGreaterEqual(int((self.room / printed.strip()).read_bytes()), number)
            holder.process.send_signal(signal.SIGCONT)
            holder.number()

    @contextlib.contextmanager
    def waited_for(self, *users, **more):
        """The stand-in below processes that wait for it, and the numbers of all, the stand-in the last. Each begins the next as a user; 0 is this one."""
        python = "/usr/bin/python3" if any(users) else sys.executable
        before = [it for user in users for it in (python, "-c", WAITER, str(user))]
        with Holder(self.db, *before, python=python, **more) as holder:
            numbers = below(holder.process.pid)
            try:
                yield holder, numbers
            finally:
                for it in reversed(numbers[1:]):
                    with contextlib.suppress(ProcessLookupError):
                        os.kill(it, signal.SIGKILL)

    def test_what_waits_for_it_goes_on_too(self):
        """It stops itself while the stand-in is held. One that stayed stopped would not end what it began."""
        with self.waited_for(0, 0) as (holder, numbers):
            for _ in range(3):
                self.backup()
                holder.number()
                self.assertEqual([it for it in numbers if state_of(it) == "T"], [])
            holder.process.terminate()
            holder.process.wait(SOON)

    def test_what_waits_for_it_goes_on_after_a_kill(self):
        """After a kill of the backup, and of its second process."""
        for act in (lambda process: process.kill(), lambda process: os.kill(self.guard_of(process.pid), signal.SIGKILL)):
            with self.waited_for(0, 0) as (holder, numbers):
                process = self.started_and_stopped()
                self.assertTrue(wait_until(lambda: {state_of(it) for it in numbers} == {"T"}))
                act(process)
                process.send_signal(signal.SIGCONT)
                self.assertTrue(wait_until(lambda: "T" not in {state_of(it) for it in numbers}))
                process.communicate(timeout=SOON)
                holder.number()

    def test_what_waits_for_it_and_was_stopped_before_is_left_so(self):
        with self.waited_for(0) as (holder, numbers):
            os.kill(numbers[0], signal.SIGSTOP)
            self.assertTrue(wait_until(lambda: state_of(numbers[0]) == "T"))
            self.backup()
            self.assertEqual(state_of(numbers[0]), "T")
            holder.number()

    @needs_root
    @needs_file("/usr/bin/python3")
    def test_what_waits_for_it_and_is_of_root(self):
        """Its own user lets it go on if it is of his session, and else says who is left stopped. One that looks late does not stop itself."""
        os.chmod(self.room, 0o777)
        os.chmod(self.copies, 0o777)
        for is_alone in (False, True):
            with self.waited_for(NOBODY, start_new_session=is_alone) as (holder, numbers):
                first, is_left = numbers[0], False
                line = f"process {first}, which began what has {self.db}, stopped itself, and this user may not let it go on: kill -CONT {first} as root"
                for _ in range(100 if is_alone else 3):
                    status, said, _ = self.by_nobody()
                    is_left = state_of(first) == "T"
                    self.assertEqual((status, said), (0, told(line) if is_left else ""))
                    holder.number()
                    if is_left:
                        break
                self.assertEqual(is_left, is_alone)

    def test_two_backups_hold_it_one_after_the_other(self):
        """Also into folders of their own: else one would let it go on while the other copies."""
        others = [self.copies, self.room / "others"]
        others[1].mkdir()
        with Holder(self.db) as holder:
            for _ in range(4):
                processes = [self.started("box.db", it) for it in others]
                for it in processes:
                    _, said = it.communicate(timeout=LONG)
                    self.assertEqual((it.returncode, said), (0, ""))
            holder.number()

    def test_another_backup_that_does_not_end(self):
        """That of the same folder, and that of the same database."""
        with Holder(self.db) as holder, unittest.mock.patch.object(BACKUP, "WAIT", 0.3):
            process = self.stopped_backup(holder)
            (self.room / "others").mkdir()
            for folder, wanted in ((self.copies, f"another backup writes to {self.copies}"), (self.room / "others", f"another backup of {self.db} goes on")):
                self.assertEqual(self.in_process(self.db, folder), (3, told(wanted)))
            process.kill()
            self.assertTrue(wait_until(lambda: holder.state() != "T"))
            self.backup()

    def test_a_command_waits_while_nobody_has_it(self):
        self.write(7, 7)
        seen = []

        def act(*words, real=BACKUP.copy_bytes):
            with open(self.db, "r+b") as it:
                seen.append(BACKUP.is_locked(it.fileno(), BACKUP.LOCKED))
            real(*words)

        with unittest.mock.patch.object(BACKUP, "copy_bytes", act):
            self.assertEqual(self.in_process(self.db, self.copies), (0, ""))
        self.assertEqual(seen, [False, False])

    def test_one_that_reads_is_held_too(self):
        """A process that only reads, as sqlite3 with a lock of readers, beside another one."""
        self.write(7, 7)
        with open(self.db, "rb") as first, open(self.db, "rb") as second:
            child = os.fork()
            if not child:
                for it in (first, second):
                    fcntl.fcntl(it, fcntl.F_OFD_SETLK, struct.pack("hhqqi4x", fcntl.F_RDLCK, os.SEEK_SET, (1 << 30) + 2, 510, 0))
                while True:
                    time.sleep(1)
        try:
            self.assertTrue(wait_until(lambda: BACKUP.locks_of(child, os.stat(self.db)) == BACKUP.SOME))
            self.backup()
            self.assertNotEqual(state_of(child), "T")
        finally:
            os.kill(child, signal.SIGKILL)
            os.waitpid(child, 0)

    @needs_root
    @needs_file("/usr/bin/python3")
    def test_one_of_another_user_is_not_held(self):
        """That user does not see it, or sees it and may not stop it."""
        with Holder(self.db) as holder:
            os.chmod(self.db, 0o666)
            os.chown(self.copies, NOBODY, NOBODY)
            wanted = f"another process has {self.db}, which this user does not see: be its user, or root"
            self.assertEqual(self.by_nobody(), (3, told(wanted), ""))
            self.assertNotEqual(holder.state(), "T")
            os.chown(self.copies, 0, 0)
            with unittest.mock.patch.object(BACKUP.Process, "send", side_effect=PermissionError):
                wanted = f"process {holder.process.pid} has {self.db}, and this user may not hold it: be its user, or root"
                self.assertEqual(self.in_process(self.db, self.copies), (3, told(wanted)))


class Refusals(Case):
    """What is wrong is a line, and nothing is left."""

    def refused(self, status, wanted, *words, **more):
        done, said, printed = self.run_it(*(words or ("box.db", "copies")), **more)
        self.assertEqual((done, said, printed, self.left()), (status, told(wanted), "", []))

    def test_words(self):
        for words in ((), ("box.db",), ("box.db", "copies", "more"), ("--other", "box.db", "copies"), ("--hold", "0", "box.db", "copies"),
                      ("--keep", "-1", "box.db", "copies"), ("--keep", "x\n\x1b[2J", "box.db", "copies"), ("box.db", "cop\nies")):
            status, said, printed = self.run_it(*words)
            self.assertEqual((status, printed), (2, ""), words)
            self.assertNotRegex(said.replace("\n", ""), "[\x00-\x1f]")
        self.assertEqual(self.run_it("--help")[::2], (0, BACKUP.__doc__.strip() + "\n"))

    def test_what_is_no_database_file(self):
        here = self.room / "odd"
        for make, wanted in (
            (lambda: None, f"there is no {here}"),
            (here.mkdir, f"{here} is no regular file"),
            (lambda: os.mkfifo(here), f"{here} is no regular file"),
            (lambda: here.symlink_to("/dev/zero"), "/dev/zero is no regular file"),
            (lambda: here.symlink_to(here.name), f"{here} is no regular file"),
            (lambda: here.symlink_to("nothing"), f"there is no {self.room}/nothing"),
        ):
            with self.subTest(wanted):
                make()
                self.refused(1, wanted, "odd", "copies")
                if here.is_dir():
                    here.rmdir()
                here.unlink(missing_ok=True)
        fifo = self.room / "fifo"
        os.mkfifo(fifo)
        here.symlink_to("fifo")
        self.refused(1, f"{fifo} is no regular file", "odd", "copies")
        self.write(7, 7)
        self.refused(1, f"{self.db}/x: Not a directory", "box.db/x", "copies")
        self.refused(1, f"{self.room}/{'x' * 300}: File name too long", "x" * 300, "copies")
        os.link(self.db, self.room / "second")
        self.refused(1, f"{self.db} has a second name, with which the archive does not open it")

    def test_what_stands_beside_it(self):
        self.write(7)
        os.mkfifo(f"{self.db}-wal")
        self.refused(1, f"{self.db}-wal is no regular file")
        os.unlink(f"{self.db}-wal")
        os.symlink("box.db", f"{self.db}-wal")
        self.refused(1, f"{self.db}-wal is no regular file")
        os.unlink(f"{self.db}-wal")
        self.write(7, 7)
        pathlib.Path(f"{self.db}-journal").write_text("journal")
        self.refused(1, f"{self.db} has the journal of another program beside it: open it with sqlite3 first")
        pathlib.Path(f"{self.db}-journal").write_bytes(bytes(8))
        self.backup()

    @needs_root
    def test_a_folder_of_another_user(self):
        """That user could not remove what root makes there."""
        self.write(7, 7)
        os.chown(self.copies, NOBODY, NOBODY)
        wanted = f"{self.copies} is of another user, who could not remove a copy of root's: give this line as that user, as by runuser -u USER --"
        self.refused(1, wanted, "box.db", self.copies)

    def test_the_folder(self):
        self.write(7, 7)
        self.refused(1, "there is no folder nothing", "box.db", "nothing")
        self.refused(1, "there is no folder box.db", "box.db", "box.db")
        (self.room / "others").mkdir()
        (self.room / "others" / BACKUP.ROOM).symlink_to("..")
        self.refused(1, f"{self.room}/others/{BACKUP.ROOM} is a link", "box.db", "others")
        left = self.copies / BACKUP.ROOM
        (left / "new").mkdir(parents=True)
        shutil.copy(self.db, left / "new")
        (left / "lock").touch()
        status, said, _ = self.run_it(left / "new/box.db", "copies")
        self.assertEqual((status, said), (1, told(f"{left}/new/box.db is what a backup is made of")))

    @needs_root
    @needs_file("/usr/bin/python3")
    def test_no_right_to_write(self):
        self.write(7, 7)
        os.chmod(self.db, 0o666)
        self.assertEqual(self.by_nobody(), (1, told(f"{self.copies}/{BACKUP.ROOM}: Permission denied"), ""))
        os.chmod(self.db, 0o444)
        self.assertEqual(self.by_nobody(), (1, told(f"{self.db}: Permission denied"), ""))

    def test_control_characters_are_not_printed(self):
        self.refused(1, f"there is no {self.room}/no?thing?[2J", "no\nthing\x1b[2J", "copies")
        self.write(7, 7)
        os.rename(self.db, self.room / "b\nx\x1b")
        os.rename(f"{self.db}-wal", self.room / "b\nx\x1b-wal")
        path = self.backup("b\nx\x1b", "copies")
        self.assertEqual((path.name, os.listdir(path.parent)[0][:4]), ("b?x?", "b\nx\x1b"))

    def test_a_copy_that_does_not_open(self):
        self.write(7, 9)
        self.refused(1, "the copy of box.db does not open: archive: K4")
        self.write(7, 7)
        self.opens("#!/bin/sh\nexit 3\n")
        self.refused(1, "the copy of box.db does not open: status 3")
        self.opens("#!/bin/sh\nprintf 'a\\033[2Jb\\nc' >&2; exit 1\n")
        self.refused(1, "the copy of box.db does not open: a?[2Jb")
        self.opens("no program\0")
        status, said, _ = self.run_it("box.db", "copies")
        self.assertEqual((status, self.left()), (1, []))
        self.assertRegex(said, r"\Abackup: .*archive: Exec format error\n\Z")

    def test_no_program_that_opens_it(self):
        self.write(7, 7)
        (self.room / "bin/archive").unlink()
        environment = {**self.variables, "PATH": str(self.room / "bin")}
        self.refused(1, "there is no archive beside this program or on the path, by which the copy is opened", env=environment)

    def test_closed_streams(self):
        """Nothing that is printed goes to the database, which would have the number of a stream that is closed."""
        self.write(7, 9)
        done = subprocess.run(["sh", "-c", f"exec {sys.executable} {TOOL} box.db copies <&- >&- 2>&-"], cwd=self.room, env=self.variables, check=False)
        self.assertEqual((done.returncode, pathlib.Path(self.db).read_bytes()), (1, b"%016d" % 7))
        with open("/dev/full", "w", encoding="ascii") as full:
            self.write(7, 7)
            status, said, _ = self.run_it("box.db", "copies", stdout=full)
        self.assertEqual((status, said), (1, told("No space left on device")))

    @needs_root
    def test_a_full_disk(self):
        with Holder(self.db) as holder, mounted(300_000) as folder:
            with open(f"{self.db}-wal", "r+b") as it:
                it.truncate(400_000)
            status, said, printed = self.run_it("box.db", folder)
            self.assertEqual((status, printed), (1, ""))
            self.assertRegex(said, r"\Abackup: .*/new/box\.db(-wal)?: No space left on device\n\Z")
            self.assertEqual([os.listdir(folder), os.listdir(f"{folder}/{BACKUP.ROOM}")], [[BACKUP.ROOM], ["lock"]])
            holder.number()
            self.assertNotEqual(holder.state(), "T")


class Killer:
    """What kills backups at random moments, half of them while what has the database is held."""

    def __init__(self, state, start):
        self.state, self.start, self.chance = state, start, random.Random(1)
        self.killed, self.held, self.whole = 0, 0, 1

    def once(self, number):
        """Starts a backup, and kills it or lets it end. Answers what it prints if it ended."""
        process, begun = self.start(), time.monotonic()
        if number % 10 == 0:
            printed, said = process.communicate(timeout=LONG)
            self.whole = time.monotonic() - begun
            if process.returncode:
                raise AssertionError(said)
            return printed
        if number % 2:
            while self.state() != "T" and process.poll() is None:
                time.sleep(0.0002)
            self.held += self.state() == "T"
            time.sleep(self.chance.uniform(0, 0.02))
        else:
            time.sleep(self.chance.uniform(0, self.whole))
        process.kill()
        printed, said = process.communicate()
        if process.returncode not in (0, -signal.SIGKILL):
            raise AssertionError(said)
        self.killed += process.returncode == -signal.SIGKILL
        return printed if process.returncode == 0 else None


class Kills(Case):
    """Backups that are killed at random moments."""

    def test_the_stand_in_goes_on_after_each(self):
        """There are thirty, and more if few of them were seen to hold it, as may be on a slow machine."""
        number = 0
        with Holder(self.db) as holder:
            killer = Killer(holder.state, lambda: self.started("box.db", "copies"))
            while number < 30 or (killer.held <= 5 and number < 300):
                before = holder.number()
                printed = killer.once(number)
                number += 1
                self.assertTrue(wait_until(lambda: holder.state() != "T"))
                after = holder.number()
                if printed:
                    self.assertTrue(before <= int((self.room / printed.strip()).read_bytes()) <= after)
        for it in self.copies.glob("2*"):
            numbers = [int((it / f"box.db{end}").read_bytes()) for end in ("", "-wal")]
            self.assertIn(numbers[0] - numbers[1], (0, 1))
        self.assertGreater(killer.held, 5)
        print(f"Of {number} backups of the stand-in {killer.killed} were killed, {killer.held} of them while it was held.")


# How many seconds pass between two files of a client, so that the archive does not grow by as much as the machine can take.
PAUSE = 0.02


class Putting:
    """A client that puts one file after the other while the `with` lasts: how many it began to put, and how many were answered."""

    def __init__(self, serving):
        self.serving, self.begun, self.answered, self.longest = serving, 0, 0, 0
        self.wrong, self.is_over = None, threading.Event()
        self.thread = threading.Thread(target=self.go)

    def __enter__(self):
        self.thread.start()
        return self

    def __exit__(self, *_):
        self.is_over.set()
        self.thread.join(LONG)

    def go(self):
        while not self.is_over.is_set() and self.wrong is None:
            self.begun += 1
            start = time.monotonic()
            try:
                status = status_of(self.serving.answer(put_of(file_of(self.answered), body_of(self.answered))))
            except OSError as error:
                status = error
            if status != 201:
                self.wrong = status or "no reply"
                return
            self.longest = max(self.longest, time.monotonic() - start)
            self.answered += 1
            time.sleep(PAUSE)


def file_of(number):
    """The name of a file that a client puts."""
    return f"file{number}_1.0-1_amd64.deb"


def body_of(number):
    """Its contents: one of eight may have more than one piece."""
    return b"%d " % number * (100 + number * 7919 % (2_000 if number % 8 else 20_000))


@needs_file(PROGRAM)
class Served(Lines):
    """Backups of what the program serves."""

    def setUp(self):
        self.shared = Room()
        self.addCleanup(self.shared.close)
        self.db = self.made()
        self.copies = pathlib.Path(os.path.dirname(self.db), "copies")
        self.copies.mkdir()

    def started(self, *words):
        streams = {"stdin": subprocess.DEVNULL, "stdout": subprocess.PIPE, "stderr": subprocess.PIPE, "text": True}
        return subprocess.Popen([sys.executable, TOOL, *words, self.db, str(self.copies)], env=self.shared.variables, **streams)

    def has(self, copy, number):
        """Whether a copy, which is opened by the program, has a file of this number."""
        path = f"{self.shared.folder}/{file_of(number)}"
        pathlib.Path(path).write_bytes(body_of(number))
        word, name = self.line(0, "put", copy, "--at", "4000000000", path).split()
        self.assertEqual(name, file_of(number))
        return word == "again"

    def test_a_state_between_begin_and_end(self):
        """Of the archive that shows something, too: the copy shows the same."""
        self.line(0, "put", self.db, "--at", "0", *(f"{DATA}/{name}" for name in NAMES))
        self.line(0, "run", self.db, "--at", "0")
        shown = self.line(0, "show", self.db, "dists/box/main/binary-amd64/Packages")
        with Serving(self.db, 1_000_000) as serving, Putting(serving) as client:
            for _ in range(5):
                self.assertTrue(wait_until(lambda: client.answered > 3 or client.wrong))
                before, process = client.answered, self.started()
                printed, said = process.communicate(timeout=LONG)
                after = client.begun
                self.assertEqual((process.returncode, said, client.wrong), (0, "", None))
                copy = printed.strip()
                self.assertEqual(self.line(0, "show", copy, "dists/box/main/binary-amd64/Packages"), shown)
                self.assertEqual([self.has(copy, it) for it in (0, before - 1, after)], [True, True, False])

    def test_it_goes_on_after_each_that_is_killed(self):
        """No reply is lost, and each backup that is there has a state between its begin and its end."""
        end, finished, number = time.monotonic() + KILLING, [], 0
        with Serving(self.db, 1_000_000) as serving, Putting(serving) as client:
            killer = Killer(lambda: state_of(serving.process.pid), self.started)
            self.assertTrue(wait_until(lambda: client.answered))
            while killer.killed < KILLS and (time.monotonic() < end or killer.killed <= LEAST):
                before, there = client.answered, set(os.listdir(self.copies))
                printed = killer.once(number)
                number += 1
                after = client.begun
                # A backup that is killed after its folder has its name prints nothing, and is there.
                new = [it for it in os.listdir(self.copies) if it not in there and it != BACKUP.ROOM]
                if printed:
                    self.assertEqual([f"{self.copies}/{it}/{os.path.basename(self.db)}" for it in new], [printed.strip()])
                finished.extend((f"{self.copies}/{it}/{os.path.basename(self.db)}", before, after) for it in new)
                self.assertTrue(wait_until(lambda: client.answered > after or client.wrong is not None), "the server is held")
                self.assertIsNone(client.wrong)
            self.assertIn(b" 200 ", serving.answer(get("verdicts"))[:20])
        for copy, before, after in finished:
            self.assertEqual([self.has(copy, before - 1), self.has(copy, after)], [True, False], copy)
        names = [pathlib.Path(it).parent.name for it, _, _ in finished]
        self.assertEqual(set(os.listdir(self.copies)) - {BACKUP.ROOM}, set(names))
        self.assertGreater(killer.killed, LEAST)
        print(f"Of {number} backups {killer.killed} were killed, {killer.held} of them while the server was held.")
        print(f"It answered {client.answered} files, each within {client.longest:.2f} seconds.")

    def test_a_damaged_one_is_no_backup(self):
        with open(self.db, "r+b") as it:
            it.truncate(os.path.getsize(self.db) // 2)
        process = self.started()
        self.assertRegex(process.communicate(timeout=LONG)[1], r"\Abackup: the copy of box\.db does not open: archive: K[24]\n\Z")
        self.assertEqual(process.returncode, 1)
        self.assertEqual(os.listdir(self.copies), [BACKUP.ROOM])


if __name__ == "__main__":
    main()
