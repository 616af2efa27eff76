"""Each growth of each call is refused once: `python3 -m tests.refuse_growths [--part] [CALL..]`.

The calls are the rows `call ..` of data/*.growths and data/*.moves of the crate `test_archives`; the latter read and migrate archives of
older layouts. CALL is the first word of some of them. For each call a file is written that has only its story, in which this one call is
marked, so that the program that `rt ci` built of `test_archives` (or the one that TEST_ARCHIVES names) prints `begin` and `end` around it. It
runs once for each growth between the marks, and this growth is refused: a library that is loaded before the C library counts the requests to
`malloc` and `realloc`. That goes on until a growth is not reached.

With --part, as `make test` has it, each growth is refused over the keeper in memory alone. Over tables, and of an archive of an older layout, the
first is, each tenth, and the last of those that come if none is refused.

The program answers the row, at once or if the call is made again after a fault of memory, with all that the archive shows as it was;
else its line differs. For each call and keeper a line is printed: how many growths the call has, how many of them were tried, and at how many
of these it was refused or was answered at once. The status is 0 if each call has a growth, but those that make nothing grow, and no run
printed another line. Without the program, or without rustc, which makes that library, it says so and tries nothing."""
import os
import re
import subprocess
import sys
import tempfile
from concurrent.futures import ThreadPoolExecutor
from pathlib import Path

from tests.wants import named, path_of, tell_skipped

CRATE = Path(__file__).resolve().parent.parent / "crates" / "test_archives"
PROGRAM = Path(os.environ.get("TEST_ARCHIVES", CRATE / "out" / "test_archives")).resolve()
# What the calls of the files of each ending are made over, in the order of the program.
KEEPERS = {"growths": ["over lists", "over tables"], "moves": ["of older ones"]}
# Calls that make nothing grow: a keeper in memory is opened by being handed over, and a cleaning of it takes elements out of
# its lists.
NOTHING_GROWS = {("over lists", "open"), ("over lists", "clean")}
# The number of runs that are begun before the answers of earlier ones are looked at.
TOGETHER = 64
# What a part tries whole, and the step between the growths that it tries of the others.
WHOLE, STEP = "over lists", 10

LIBRARY = r"""
#![no_std]
use core::ffi::c_void;
use core::sync::atomic::{AtomicBool, AtomicI64, Ordering::Relaxed};

// Of C, on x86-64: older compilers than 1.64 name them elsewhere.
type Char = i8;
type Long = i64;

extern "C" {
    fn __libc_malloc(size: usize) -> *mut c_void;
    fn __libc_realloc(block: *mut c_void, size: usize) -> *mut c_void;
    fn getenv(name: *const Char) -> *const Char;
    fn atol(text: *const Char) -> Long;
    fn syscall(number: Long, ...) -> Long;
}

const WRITE: Long = 1;

/// How many marks have come, and whether growths count now; how many came while they did.
static MARKS: AtomicI64 = AtomicI64::new(0);
static COUNTS: AtomicBool = AtomicBool::new(false);
static GROWTHS: AtomicI64 = AtomicI64::new(0);

/// A number of the environment: of the marks that count, or of the growth that is refused.
fn number(name: &[u8]) -> i64 {
    unsafe { atol(getenv(name.as_ptr().cast())) }
}

fn is_refused() -> bool {
    COUNTS.load(Relaxed) && GROWTHS.fetch_add(1, Relaxed) + 1 == number(b"REFUSED\0")
}

#[no_mangle]
pub unsafe extern "C" fn malloc(size: usize) -> *mut c_void {
    if is_refused() { core::ptr::null_mut() } else { __libc_malloc(size) }
}

#[no_mangle]
pub unsafe extern "C" fn realloc(block: *mut c_void, size: usize) -> *mut c_void {
    if is_refused() { core::ptr::null_mut() } else { __libc_realloc(block, size) }
}

/// Writes on standard error how many growths came.
fn tell() {
    let (mut text, mut at, mut rest) = ([b'\n'; 21], 20, GROWTHS.load(Relaxed));
    while at == 20 || rest > 0 {
        at -= 1;
        text[at] = b'0' + (rest % 10) as u8;
        rest /= 10;
    }
    unsafe { syscall(WRITE, 2 as Long, text.as_ptr().add(at), 21 - at) };
}

/// A write is passed on; a mark begins to count, or ends it.
#[no_mangle]
pub unsafe extern "C" fn write(file: i32, text: *const u8, size: usize) -> isize {
    let bytes = core::slice::from_raw_parts(text, size);
    if file == 1 && bytes.starts_with(b"begin") {
        COUNTS.store(MARKS.fetch_add(1, Relaxed) + 1 == number(b"MARKS\0"), Relaxed);
    }
    if file == 1 && bytes.starts_with(b"end") && COUNTS.swap(false, Relaxed) {
        tell();
    }
    syscall(WRITE, file as Long, text, size) as isize
}

#[no_mangle]
pub unsafe extern "C" fn __write(file: i32, text: *const u8, size: usize) -> isize {
    write(file, text, size)
}

#[no_mangle]
pub extern "C" fn rust_eh_personality() {}

#[panic_handler]
fn panic(_: &core::panic::PanicInfo) -> ! {
    loop {}
}
"""


def make_library(folder):
    """Compiles the library that counts growths and refuses one."""
    source, library = folder / "growths.rs", folder / "growths.so"
    source.write_text(LIBRARY, encoding="ascii")
    flags = ["--edition=2021", "--crate-type=cdylib", "-Cpanic=abort", "-Copt-level=2", "-o"]
    subprocess.run(["rustc", *flags, library, source], check=True)
    return library


def stories(ending):
    """The lines of each story, of all files of an ending. One begins with an archive that is made, or an older one that is read; the texts in
    front of the first belong to each."""
    first = "archive " if ending == "growths" else "call old "
    for path in sorted(CRATE.glob(f"data/*.{ending}")):
        front, *found = re.split(rf"^(?={first})", path.read_text(encoding="utf-8"), flags=re.M)
        for story in found:
            yield [line for line in (front + story).split("\n") if line and not line.startswith("#")]


def calls(ending, words):
    """Each call with the text of its story, in which it is marked."""
    for story in stories(ending):
        for place, line in enumerate(story):
            if line.startswith("call ") and (not words or line.split()[1] in words):
                marked = [*story[:place], line.replace("call", "marked", 1), *story[place + 1:]]
                yield line, "\n".join(marked) + "\n"


class Call:
    """A marked call over one of the keepers."""

    def __init__(self, folder, library, line, story, ending, keeper):
        self.line, self.keeper, self.folder = line, keeper, folder
        self.keepers, self.file = KEEPERS[ending], f"marked.{ending}"
        self.environment = {"LD_PRELOAD": str(library), "MARKS": str(1 + self.keepers.index(keeper))}
        self.rows = sum(not it.startswith(("|", "text ")) for it in story.split("\n")[:-1])
        self.refused, self.at_once, self.ill, self.growths = 0, 0, [], 0
        (folder / self.file).write_text(story, encoding="utf-8")

    def run(self, refused):
        """Runs the program, with this growth refused: what it printed, and how many growths there were."""
        words = [str(PROGRAM), self.file, *(str(it) for it in sorted(CRATE.glob("data/*.texts")))]
        environment = {**self.environment, "REFUSED": str(refused)}
        run = subprocess.run(words, cwd=self.folder, env=environment, capture_output=True, text=True, errors="replace", check=False)
        return refused, run.stdout, run.stderr

    def outcome(self, printed):
        """`refused` or `at once`, or nothing if the program printed something else."""
        words = {it: "(at once|refused)" if it == self.keeper else "at once" for it in self.keepers}
        wanted = "".join(f"begin\nend\n{words[it]}\n{it}: {self.file}: {self.rows} rows\n" for it in self.keepers)
        found = re.fullmatch(wanted, printed)
        return found and found[1]

    def take(self, refused, printed, told):
        """Counts a run, and answers whether the growth was reached."""
        outcome = self.outcome(printed)
        if not outcome or not re.fullmatch(r"\d+\n", told):
            self.ill.append(f"growth {refused}: {(printed + told)[-600:]!r}")
            return True
        if int(told) < refused:
            if outcome == "refused":
                self.ill.append(f"growth {refused} is not reached, and yet one is refused")
            return False
        self.growths = refused
        self.refused, self.at_once = self.refused + (outcome == "refused"), self.at_once + (outcome == "at once")
        return True

    def refuse_each(self, pool):
        """Refuses the growths, one after another, until one is not reached."""
        first = 1
        while len(self.ill) < 5:
            for answer in pool.map(self.run, range(first, first + TOGETHER)):
                if not self.take(*answer):
                    return
            first += TOGETHER

    def refuse_some(self, pool):
        """Refuses the first growth, some after it and the last, of those that come if none is refused."""
        _, printed, told = self.run(0)
        if self.outcome(printed) != "at once" or not re.fullmatch(r"\d+\n", told):
            self.ill.append(f"no growth: {(printed + told)[-600:]!r}")
            return
        count = int(told)
        for answer in pool.map(self.run, sorted({1, *range(STEP, count, STEP), count}) if count else ()):
            if not self.take(*answer):
                self.ill.append(f"growth {answer[0]} of {count} is not reached")
        self.growths = count

    def report(self):
        """Prints how it went, and answers whether it went well."""
        has_growths = self.growths > 0 or (self.keeper, self.line.split()[1]) in NOTHING_GROWS
        line = self.line if len(self.line) < 70 else self.line[:67] + "..."
        counts = f"{self.growths} growths, {self.refused + self.at_once} tried, {self.refused} refused, {self.at_once} answered at once"
        print(f"{self.keeper}: {line}: {counts}", flush=True)
        for it in [*self.ill, *([] if has_growths else ["no growth lies between the marks"])]:
            print(f"    {it}", flush=True)
        return has_growths and not self.ill


def main():
    if not path_of("rustc") or not PROGRAM.exists():
        tell_skipped("tests.refuse_growths", f"there is no {PROGRAM if path_of('rustc') else named('rustc')}")
        return 0
    is_part, words = "--part" in sys.argv[1:], [it for it in sys.argv[1:] if it != "--part"]
    keepers = [(ending, it) for ending, all_ in KEEPERS.items() for it in all_]
    well, count = True, 0
    with tempfile.TemporaryDirectory() as name, ThreadPoolExecutor(len(os.sched_getaffinity(0))) as pool:
        folder = Path(name)
        library = make_library(folder)
        for ending, keeper in keepers:
            for line, story in calls(ending, words):
                call = Call(folder, library, line, story, ending, keeper)
                refuse = call.refuse_some if is_part and keeper != WHOLE else call.refuse_each
                refuse(pool)
                well, count = call.report() and well, count + 1
    print(f"{count} calls: {'all as they should' if well and count else 'some otherwise'}")
    return 0 if well and count else 1


if __name__ == "__main__":
    sys.exit(main())
