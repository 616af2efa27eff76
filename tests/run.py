"""All tests of this repository, as `make test` and CI run them.

First come those that take seconds: whether the pages and the wrong bodies fit the sources, the words of comments, and the tests of the tools.
Then comes the gate, rt ci, and after it the tests of the program that it built, two at a time if there are four processors. Each is run, even if
one before it failed. At the end each test that was skipped has a line, below what there is not on this machine. Lines after that say once more
how long the gate took, what it took of the processors and at which minute each crate was proved, and what failed, so that a log that has only
its last lines has them. Below a tool that failed are its tests that failed, each with its exception, or else the last lines that the tool
printed. Then comes a line that counts the tests that were skipped. The last line is 'N passed, M failed': what the gate counts, and one more for
each of the others. The status is 0 if none failed."""
import concurrent.futures
import os
import re
import resource
import shutil
import subprocess
import sys
import tempfile
import time

ROOT = os.path.dirname(os.path.dirname(os.path.abspath(__file__)))
BEFORE = [
    "checks/pages",
    "checks/words",
    "checks/try_wrong_bodies --read",
    "tests.test_pages",
    "tests.test_texts",
    "tests.test_format",
    "tests.test_words",
    "tests.test_using",
    "tests.test_using_keys",
    "tests.test_wrong_bodies",
    "tests.test_ports",
    "tests.test_run",
    "tests.test_tools",
    "tests.test_upload",
]
GATE = ["rt", "ci"]
# How the gate is begun. With a head start its first crates, which wait for each other, are proved before it, by two jobs each. This takes a kit
# that keeps what was proved of crates that are named; such a kit proves no crate by name if CI=true. With jobs there is a check for each
# processor, of one job each, if there is memory for it. Otherwise rt goes by its own count of memory, and gives idle processors to checks.
HAS_HEAD_START = True
HAS_JOBS = True
# The crates that stand on each other at its beginning, lowest first, and those that stand on few of them and on which much waits.
CHAIN = ["para", "vers", "sums", "records", "rules", "suites", "indices", "book"]
BESIDE = ["test_rows", "tables", "tables_read", "old_rows"]
# A crate is proved by the run that comes to it first: those of the chain are to be proved by two jobs each, so that run begins first.
SECONDS_TO_BEGIN = 10
# The memory that a check takes at most, in bytes, over the four that take the most side by side.
MEMORY_OF_CHECK = 5_500_000_000
BEHIND = [
    "tests.test_with_sidecars",
    "tests.test_adopt",
    "tests.test_backup",
    "tests.test_database",
    "tests.test_archives",
    "tests.test_others",
    "tests.test_served",
    "tests.test_questions",
    "tests.test_pieces",
    "tests.test_large",
    "tests.test_command_lines",
    "tests.test_layouts",
    "tests.test_batch",
    "tests.test_configurations",
    "tests.test_migrations",
    "tests.test_orders",
    "tests.test_long_indices",
    "tests.test_lines",
    "tests.test_serving",
    "tests.test_holders",
    "tests.test_moments",
    "tests.test_failing",
    "tests.test_hostile",
    "tests.test_soak",
    "tests.test_readme",
    "tests.test_using_program",
    "tests.test_using_proxy",
    "tests.test_using_tree",
    "tests.test_using_words",
    "tests.test_using_days",
    "tests.test_listing",
    "tests.test_why",
    "tests.test_progress",
    "tests.test_meanings",
    "tests.test_slips",
    "tests.test_export",
    "tests.test_export_hostile",
    "tests.test_export_planted",
    "tests.test_export_apt",
    "tests.test_web_pages",
    "tests.test_served_pages",
    "tests.test_figures",
    "tests.test_packaging",
    "tests.refuse_growths --part",
]
COUNTS = re.compile(r"(\d+) passed, (\d+) failed$")
# The lines of the gate that say what failed in it: each by itself, and at its end all names.
OF_FAULTS = re.compile(r"rt: (FAILED: .*|.* NOT PROVED|.*: NOT (REFUSED|TRIED).*|.*: the program (ended|was stopped|had not ended) .*|.*: what the program wrote, .*|.*: its tests FAILED)$")
# The line of the gate that says that a crate is proved.
PROVED = re.compile(r"rt: (\w+) proved$")
# What unittest prints of a test that failed: a line of =, one with the name of the test, a line of -, and the traceback.
EQUALS, DASHES = "=" * 70, "-" * 70
OF_TEST = "FAIL: ", "ERROR: "
# How many lines at the end may say what failed in a tool. If several tools failed, they share them, but each has the least number.
MOST_LINES, LEAST_LINES = 12, 3
# How many lines are printed once more of a tool that failed and has no tests, and how many characters of a line at the end.
LAST_LINES, LONGEST = 5, 300
# How many additions a machine's speed is measured by.
ADDITIONS = 5_000_000
# The first kit that proves crates by name, and keeps that.
KEEPING_KIT = 13, "f"


def ran(line, is_shown=True):
    """Runs a tool, which is named by its path or as a module of tests. Answers its status, and what it printed on both outputs. If that is to be
    shown, each line is printed as it comes."""
    name, *words = line.split()
    module, printed = ["-m"] if name.startswith("tests.") else [], []
    words = [sys.executable, *module, name, *words]
    with subprocess.Popen(words, cwd=ROOT, stdout=subprocess.PIPE, stderr=subprocess.STDOUT) as process:
        for it in process.stdout:
            printed.append(it.decode(errors="replace"))
            if is_shown:
                print(printed[-1], end="", flush=True)
    return process.returncode, "".join(printed)


def each_ran(lines, together):
    """Runs tools, as many at a time, and answers of each its status and what it printed. That stands together, in the order of the lines, and is
    printed as it comes if they run one at a time."""
    if together == 1:
        for line in lines:
            print(f"== {line}", flush=True)
            yield ran(line)
        return
    with concurrent.futures.ThreadPoolExecutor(together) as pool:
        runs = pool.map(lambda line: ran(line, is_shown=False), lines)
        for line, (status, printed) in zip(lines, runs):
            print(f"== {line}", printed, sep="\n", end="", flush=True)
            yield status, printed


# ---- what failed in a tool


def cut(line):
    """A line, or the beginning and the end of a long one."""
    return line if len(line) <= LONGEST else f"{line[:LONGEST - 100]}..{line[-98:]}"


def faults_of_test(said):
    """Lines on a test that failed, by what unittest says of it: its name, with the number of its line that failed, and the exception. If that has
    several lines, they are the first one, what came in place of an element that was wanted, the last one of a difference that came, and the last one."""
    head, _, traceback = said.partition(DASHES)
    numbers = re.findall(r'^  File ".*", line (\d+), in test_', traceback, re.M)
    name = ", line ".join([head.partition("\n")[0], *numbers[-1:]])
    # Between the head of a traceback and the exception all lines are indented. A line with the marks of a difference says nothing by itself.
    rest = traceback.rpartition("Traceback (most recent call last):\n")[2].split("\n")
    lines = [it for it in rest if it.strip() and not it.startswith((" ", "?", "Diff is "))]
    came = [came for it, came in zip(lines, lines[1:]) if it.startswith("First differing element ")]
    came += [it for it in lines if it.startswith("- ")][-1:]
    return [name, *(f"    {it}" for it in dict.fromkeys([*lines[:1], *came, *lines[-1:]]))]


def faults_of(status, printed):
    """Lines on what failed in a tool that ended with this status and printed this: its tests that failed, or else its last lines."""
    tests = [it.partition(f"{DASHES}\nRan ")[0] for it in printed.split(f"{EQUALS}\n") if it.startswith(OF_TEST)]
    faults = [line for it in tests for line in faults_of_test(it)] or [it for it in printed.split("\n") if it.strip()][-LAST_LINES:]
    return [*([f"ended by signal {-status}"] if status < 0 else []), *map(cut, faults)]


def told_of_failed(failed):
    """Lines on the tools that failed: on each its own, and as many as may be of those that say what failed in it."""
    most = max(LEAST_LINES, MOST_LINES // max(1, len(failed)))
    for line, faults in failed:
        yield f"Failed: {line}"
        yield from (f"    {it}" for it in faults[:most])
        if len(faults) > most:
            yield f"    and {len(faults) - most} more"


# ---- the gate


def free_memory():
    """The number of bytes of memory that are free, as the system says."""
    with open("/proc/meminfo", encoding="ascii") as file:
        found = re.search(r"MemAvailable:\s+(\d+) kB", file.read())
    return 1024 * int(found[1]) if found else 0


def kit():
    """The number and the letter of the kit, as (13, "f"), or None if it gives none."""
    ran = subprocess.run(["rt", "--version"], stdin=subprocess.DEVNULL, capture_output=True, text=True, check=False)
    found = re.match(r"rattle-kit-(\d+)([a-z]*) ", ran.stdout)
    return found and (int(found[1]), found[2])


def environment_of_gate():
    """The environment that the gate is run in. rt counts more memory for a check than one takes here, and leaves processors idle
    by that count. RT_JOBS has it run a check on each processor, if there is memory for that."""
    processors = len(os.sched_getaffinity(0))
    is_enough = free_memory() >= processors * MEMORY_OF_CHECK
    return {**({"RT_JOBS": str(processors)} if HAS_JOBS and is_enough else {}), **os.environ}


def can_begin_before():
    """Whether the gate has a head start here."""
    return HAS_HEAD_START and os.environ.get("CI") != "true" and (kit() or (0, "")) >= KEEPING_KIT


def prove_first():
    """Proves the first crates, which wait for each other. Those of the chain are proved in a copy of the text that has no wrong bodies, each
    by half of the processors; beside them, by the other half, those of which few wait, and the wrong bodies below them. What passes is
    kept, and the gate takes it. What fails here, fails in the gate."""
    environment = environment_of_gate()
    with tempfile.TemporaryDirectory(prefix="first-") as folder:
        for name in ("HANDLES", "crates.txt"):
            shutil.copy(os.path.join(ROOT, name), folder)
        shutil.copytree(os.path.join(ROOT, "crates"), os.path.join(folder, "crates"), ignore=shutil.ignore_patterns("out", "must-fail"))
        with subprocess.Popen([*GATE, *CHAIN], cwd=folder):
            if "RT_JOBS" in environment:
                time.sleep(SECONDS_TO_BEGIN)
                half = max(1, int(environment["RT_JOBS"]) // 2)
                subprocess.run([*GATE, *BESIDE], cwd=ROOT, env={**environment, "RT_JOBS": str(half)}, check=False)


def seconds_of_children():
    """The seconds of processor that the programs took which this one ran and waited for, with those that they ran."""
    used = resource.getrusage(resource.RUSAGE_CHILDREN)
    return used.ru_utime + used.ru_stime


def seconds_of_additions():
    """The seconds that a processor of this machine takes for the additions, the least of three rounds: figures of two machines are compared by it."""

    def one_round():
        began, total = time.process_time(), 0
        for it in range(ADDITIONS):
            total += it
        return time.process_time() - began

    return min(one_round() for _ in range(3))


def gate():
    """Runs the gate, says how long it took, and answers how much of it passed and failed, and lines on it."""
    if not shutil.which(GATE[0]):
        print("There is no rt on the path, so nothing is proved.", flush=True)
        return 0, 1
    last, faults, ends, began, spent = "", [], [], time.monotonic(), seconds_of_children()
    if can_begin_before():
        prove_first()
    with subprocess.Popen(GATE, cwd=ROOT, env=environment_of_gate(), stdout=subprocess.PIPE, text=True, errors="replace") as run:
        for line in run.stdout:
            print(line, end="", flush=True)
            last = line.strip() or last
            if found := PROVED.match(line.rstrip()):
                ends.append(f"{found[1]} {(time.monotonic() - began) / 60:.0f}")
            if OF_FAULTS.match(line.rstrip()):
                faults.append(f"Of the gate: {line.rstrip()[:600]}")
    took = f"The gate took {(time.monotonic() - began) / 60:.1f} minutes."
    work = f"It took {seconds_of_children() - spent:,.0f} seconds of processor, on {len(os.sched_getaffinity(0))} processors. "
    work += f"One adds {ADDITIONS:,} numbers in {seconds_of_additions():.2f} seconds."
    lines = [took, work, *([f"The minute at which each crate was proved: {', '.join(ends)}."] if ends else [])]
    print(*lines, sep="\n", flush=True)
    found = COUNTS.match(last)
    passed, failed = (int(it) for it in found.groups()) if found else (0, 1)
    return passed, failed or int(run.returncode != 0), *lines, *faults


def told_of_skipped(lines):
    """What is printed of the tests that were skipped, of each what it is and why: below each reason, those that it skipped."""
    found = {}
    for it in lines:
        what, _, why = it.rstrip("\n").partition("\t")
        found.setdefault(why, []).append(what)
    told = [line for why, names in found.items() for line in (f"Skipped, since {why}:", *(f"    {it}" for it in names))]
    return [*told, f"{sum(map(len, found.values()))} skipped"]


def run_all(*parts):
    """Runs parts, each of which answers how much passed and failed, and lines that are printed once more at the end. Prints the totals of the parts as the last lines. Answers the status."""
    passed, failed, again = 0, 0, []
    with tempfile.NamedTemporaryFile("r", encoding="utf-8") as skipped:
        os.environ["SKIPPED"] = skipped.name
        for part in parts:
            well, ill, *lines = part()
            passed, failed = passed + well, failed + ill
            again += lines
        *names, count = told_of_skipped(skipped)
        print(*names, *again, count, sep="\n")
    print(f"{passed} passed, {failed} failed")
    return 1 if failed else 0


def each_of(lines, together=1):
    """A part that runs each of these tools, as many at a time. Its lines are on those that failed."""

    def run():
        failed = [(line, faults_of(*ended)) for line, ended in zip(lines, each_ran(lines, together)) if ended[0]]
        return len(lines) - len(failed), len(failed), *told_of_failed(failed)

    return run


def main():
    return run_all(each_of(BEFORE), gate, each_of(BEHIND, 2 if len(os.sched_getaffinity(0)) >= 4 else 1))


if __name__ == "__main__":
    sys.stdout.reconfigure(errors="backslashreplace")  # what a tool prints may have characters that this output can't have
    sys.exit(main())
