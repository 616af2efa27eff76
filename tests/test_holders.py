"""Tests of commands on a database file that another process has. The program is that of program.py."""
import contextlib
import os
import subprocess
import time

from tests.program import DATA, LONG, NAMES, PROGRAM, Lines, Serving, fewest_seconds, get, rest, seconds_since
from tests.wants import main

# The words of each command after `--db FILE`, and its answer if nobody has the file: status, and both outputs.
COMMANDS = {
    "init": (["--at", "0", "{folder}/box.conf"], (1, "", "archive: K4\n")),
    "put": (["--at", "0", f"{DATA}/{NAMES[1]}"], (0, f"again {NAMES[1]}\n", "")),
    "run": (["--at", "0"], (0, "", "")),
    "clean": (["--at", "0"], (0, "0\n", "")),
    "batch": (["--at", "0", os.devnull], (0, "", "")),
    "copy": (["--at", "0", "box", "box", "hello"], (1, "", "archive: Q7\n")),
    "promote": (["--at", "0", "box", "box"], (1, "", "archive: Q7\n")),
    "remove": (["--at", "0", "box", "nosuch"], (1, "", "archive: Q11\n")),
    "show": (["pool/main/h/hello/hello_1.0-1_amd64.deb"], (0, "abc", "")),
    "waiting": (["--at", "0"], (0, "", "")),
    "verdicts": ([], (0, f"accepted {NAMES[0]}\n", "")),
}


@contextlib.contextmanager
def begun(db, command):
    """A command that runs. It is ended whatever happens."""
    words = [word.replace("{folder}", os.path.dirname(db)) for word in COMMANDS[command][0]]
    process = subprocess.Popen([PROGRAM, command, "--db", db, *words], stdout=subprocess.PIPE, stderr=subprocess.PIPE, text=True)
    try:
        yield process
    finally:
        process.kill()
        process.communicate()


class Holders(Lines):
    @contextlib.contextmanager
    def all_begun(self, db, commands=COMMANDS):
        """All commands, or some, begun at once while another process has the file."""
        with contextlib.ExitStack() as stack:
            yield {command: stack.enter_context(begun(db, command)) for command in commands}

    def results(self, processes):
        """The end of each command, by its name: status, and both outputs."""
        printed = {command: it.communicate(timeout=LONG) for command, it in processes.items()}
        return {command: (processes[command].returncode, *texts) for command, texts in printed.items()}

    def test_each_command_waits_for_a_file_that_is_let_go(self):
        """A third of them at a time, since each waits for ten seconds at most, for those that come before it, too."""
        db = self.accepted()
        for commands in (list(COMMANDS)[number::3] for number in range(3)):
            with Serving(db, 2) as holder:
                holder.answer(b"")
                with self.kept(holder) as held, self.all_begun(db, commands) as processes:
                    time.sleep(2)
                    self.assertEqual([command for command, it in processes.items() if it.poll() is not None], [])
                    held.close()
                    self.assertEqual(holder.ended(), (0, "", ""))
                    self.assertEqual(self.results(processes), {command: COMMANDS[command][1] for command in commands})

    def test_each_command_gives_up_where_it_is_not(self):
        db = self.accepted()
        with Serving(db, 2) as holder:
            holder.answer(b"")
            start = time.monotonic()
            with self.all_begun(db) as processes, Serving(db, 1) as serving, self.kept(holder):
                self.assertEqual(serving.ended(), (3, "", "archive: K2\n"))
                self.assertEqual(self.results(processes), dict.fromkeys(COMMANDS, (3, "", "archive: K2\n")))
                waited = seconds_since(start)
        self.assertGreaterEqual(waited, 9.5)
        # After 30 seconds the server lets the file go.
        self.assertLess(waited, 25)

    @contextlib.contextmanager
    def kept(self, holder):
        """Keeps a server busy with its last connection, whose client sends a byte and no more. It is kept for 30 seconds."""
        with holder.connected() as client:
            client.sendall(b"G")
            yield client

    def test_what_no_process_has_is_not_waited_for(self):
        db = self.made()
        for path in (f"{db}.none/a.db", f"{os.path.dirname(db)}/box.conf"):
            def waited():
                start = time.monotonic()
                self.assertEqual(self.line(3, "verdicts", path), "archive: K2\n")
                return seconds_since(start)

            self.assertLess(fewest_seconds(waited, 5), 5)

    def test_a_server_waits_too(self):
        db = self.accepted()
        with Serving(db, 2) as holder:
            holder.answer(b"")
            with holder.connected() as held, Serving(db, 1) as serving:
                client = serving.sent(get("pool/main/h/hello/hello_1.0-1_amd64.deb"))
                time.sleep(2)
                held.close()
                self.assertTrue(rest(client).endswith(b"\r\n\r\nabc"))
                self.assertEqual(serving.ended(), (0, "", ""))


if __name__ == "__main__":
    main()
