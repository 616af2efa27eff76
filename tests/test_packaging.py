"""Tests of packaging/: the manuals, which are made from the pages, and the Debian package. If the program of program.py is built, and one may
mount, the package is installed in a root of its own over this machine's. There it makes an archive, takes its own package by dput, and serves it
to apt. If a tool is missing they say that they were skipped."""
import contextlib
import gzip
import os
import pathlib
import re
import shutil
import signal
import subprocess
import sys
import tempfile
import time
import unittest
import unittest.mock

from tests.ports import free_port
from tests.program import PROGRAM
from tests.snippets import snippet
from tests.test_command_lines import OPTIONS, USAGES
from tests.tools import ROOT, tool
from tests.wants import main, needs, needs_file, needs_root, no_file_system
from uploads import uploads

MAKE = f"{ROOT}/packaging/make_deb"
VERSION = (ROOT / "VERSION").read_text(encoding="ascii").strip()
DEB = f"boqitsel_{VERSION}_amd64.deb"
LONG = 300

# Installs the package in a system of its own, uses it, and takes it off. $1 is the folder with the package and what goes with it, $2 a port.
OUTSIDE = """
mount -t tmpfs none "$1/room"
mkdir "$1/room/upper" "$1/room/work" "$1/room/system"
mount -t overlay overlay -o "lowerdir=/,upperdir=$1/room/upper,workdir=$1/room/work" "$1/room/system"
mount --rbind /dev "$1/room/system/dev"
mount --rbind /proc "$1/room/system/proc"
mkdir "$1/room/system/given"
cp "$1"/given/* "$1/room/system/given"
chroot "$1/room/system" sh -ec '. /given/inside' inside "$2"
"""

INSIDE = """
exec < /dev/null
rm -f /usr/local/bin/archive
dpkg -i /given/*.deb > /dev/null
test "$(archive compare 1.0-1 1.0-2)" = less
boqitsel --version
test "$(readlink -f /usr/bin/archive)" = /usr/bin/boqitsel
test ! -e /etc/systemd/system/multi-user.target.wants/boqitsel.service
systemctl() { echo "systemctl $*"; }
. /given/steps
# The package may have more than 4 MiB.
sed -i '1i MaxFileSize: 64' box.conf
runuser -u archive -- archive configure --db box.db --at "$(date +%s)" box.conf
runuser -u archive -- archive serve --db box.db --at "$(date +%s)" "127.0.0.1:$1" 1000 &
serving=$!
trap 'kill -KILL $(cat "/proc/$serving/task/$serving/children") "$serving" 2> /dev/null || true' EXIT
upload "http://127.0.0.1:$1" /given/one.changes --most 64 --run
runuser -u archive -- mkdir copies
runuser -u archive -- backup --keep 7 box.db copies
# What waits for the server stopped itself with it, and has to go on with it.
echo "after the backup: $(grep State "/proc/$serving/status")"
with_sidecars --most 64 /given/two.changes ready > /dev/null
if command -v dput > /dev/null; then
    HOME=/given dput -c /given/dput.cf box ready/two.changes && echo dput
fi
echo "deb [trusted=yes] http://127.0.0.1:$1/ box main" > /etc/apt/box.list
apt() { apt-get -qq -o Dir::Etc::sourcelist=/etc/apt/box.list -o Dir::Etc::sourceparts=- -o APT::Sandbox::User=root "$@"; }
apt update
apt-get -o Dir::Etc::sourcelist=/etc/apt/box.list -o Dir::Etc::sourceparts=- --print-uris -y --reinstall install boqitsel | tail -n 1
apt install --reinstall -y boqitsel > /dev/null
apt remove -y boqitsel > /dev/null
kill $serving
for _ in $(seq 1000); do test ! -e "/proc/$serving" || sleep 0.1; done
test -e "/proc/$serving" || { trap - EXIT; echo ended; }
test ! -e /usr/bin/archive && test ! -e /usr/bin/boqitsel && test ! -e /etc/alternatives/archive
test -e /srv/box/box.db && echo kept
"""

# Puts something else at the place of each name, before the package is installed and after, and looks whether it stays. `given` prints the names that
# the package has given, and `state` what is at each.
FOREIGN = """
exec < /dev/null
rm -f /var/lib/man-db/auto-update
names=$(sed "s/ .*//" /given/names)
given() {
    for it in $names; do
        case $(readlink -f "$it") in */boqitsel*) echo "given $it" ;; esac
    done
}
state() {
    for it in $names; do
        stat -c "%n %F %s %N" "$it"
        if [ -f "$it" ] && [ ! -L "$it" ]; then cat "$it"; fi
    done
}
check() {
    state > /now
    cmp -s /before /now || { echo "$1:"; diff /before /now || true; }
}
clear() {
    rm -rf $names
}
plant() {
    set -- $names
    rm -rf "$@"
    ln -s /bin/echo "$1"
    ln -s /nowhere "$2"
    ln -s /usr "$3"
    echo text > "$4"
    mkdir "$5"
    mkfifo "$6"
    ln -s "$4" "$7"
    ln -s /etc/alternatives/other "$8"
    shift 8
    for it in "$@"; do ln -s /bin/true "$it"; done
    state > /before
}
through() {
    dpkg -i /given/*.deb > /dev/null
    check "$1, installed again"
    dpkg -r boqitsel > /dev/null
    check "$1, removed"
    dpkg -P boqitsel > /dev/null
    check "$1, purged"
}
clear
plant
dpkg -i /given/*.deb > /dev/null
check "before, installed"
through before
clear
dpkg -i /given/*.deb > /dev/null
given
plant
through while
clear
# Only names that nothing else has are given, and an alternative of something else stays.
ln -s /bin/echo /usr/bin/archive
update-alternatives --quiet --install /usr/bin/other archive-upload /bin/echo 10
dpkg -i /given/*.deb > /dev/null
echo half
given
readlink /usr/bin/archive /usr/bin/other /etc/alternatives/archive-upload
dpkg -P boqitsel > /dev/null
readlink /usr/bin/archive /usr/bin/other /etc/alternatives/archive-upload
update-alternatives --quiet --remove archive-upload /bin/echo
rm /usr/bin/archive
for it in $names; do ls -d "$it"* 2> /dev/null || true; done
while read -r link name path; do ls -d "/etc/alternatives/$name" "/var/lib/dpkg/alternatives/$name" 2> /dev/null || true; done < /given/names
echo gone
"""

# Removes the package while its units are enabled. A systemctl of its own says what it is asked for, and does what needs no systemd.
UNITS_END = """
exec < /dev/null
rm -f /var/lib/man-db/auto-update
rm -f /usr/sbin/policy-rc.d
dpkg -i /given/*.deb > /dev/null
systemctl --quiet enable boqitsel.service boqitsel-queue.timer boqitsel-sign.path boqitsel-sign.timer boqitsel-clean.timer boqitsel-backup.timer
mkdir -p /run/systemd/system
dpkg-divert --quiet --local --rename --add /usr/bin/systemctl
cp /given/systemctl /usr/bin/systemctl
ls /etc/systemd/system/*.wants | grep boqitsel | sort
dpkg -i /given/*.deb > /dev/null
cat /asked 2> /dev/null || true
echo again
mkdir -p /srv/box
dpkg -r boqitsel | grep '^boqitsel: '
cat /asked
ls /etc/systemd/system/*.wants | grep boqitsel || echo none
"""
SYSTEMCTL = """#!/bin/sh
echo "systemctl $*" >> /asked
case "$*" in *disable*) rmdir /run/systemd/system; systemctl.distrib "$@"; mkdir /run/systemd/system ;; esac
"""


def run(*words, **more):
    ran = subprocess.run(words, capture_output=True, text=True, check=False, timeout=LONG, **more)
    return ran.returncode, ran.stdout, ran.stderr


def make_deb():
    """What makes the package, as a module."""
    with unittest.mock.patch.object(sys, "path", [f"{ROOT}/packaging", *sys.path]):
        return tool("packaging/make_deb")


class Room(unittest.TestCase):
    def setUp(self):
        room = tempfile.TemporaryDirectory()
        self.addCleanup(room.cleanup)
        self.room = pathlib.Path(room.name)


class Manuals(Room):
    def setUp(self):
        super().setUp()
        self.assertEqual(run(f"{ROOT}/packaging/manuals.py", self.room), (0, "", ""))

    def shown(self, name):
        """A manual as man shows it, in which no word is divided at the end of a line."""
        status, text, told = run("man", "--warnings", "--no-hyphenation", "-l", self.room / name, env={**os.environ, "MANWIDTH": "400", "LC_ALL": "C.UTF-8"})
        self.assertEqual((status, told), (0, ""))
        return text

    @needs("man")
    def test_what_the_pages_say_is_in_them(self):
        text = self.shown("archive.1")
        for line in snippet("commands").splitlines():
            if line.startswith("archive "):
                self.assertIn(line.partition("#")[0].strip(), text)
        words = " ".join(text.split())
        for row in re.findall(r"^\| `.*$", (ROOT / "docs/FAULTS.md").read_text(encoding="utf-8"), re.M):
            row = row.replace("`", "").replace("docs/", "/usr/share/doc/boqitsel/").replace("bin/with_sidecars", "with_sidecars")
            for cell in row.strip("| ").split(" | "):
                self.assertIn(" ".join(cell.split()), words)
        text = self.shown("archive.conf.5")
        for line in [*snippet("configuration").splitlines(), *snippet("three suites").splitlines()]:
            self.assertIn(line, text)
        for name in ("upload", "with_sidecars", "adopt", "backup"):
            told = run(sys.executable, f"{ROOT}/bin/{name}", "--help")[1]
            text = " ".join(self.shown(f"{name}.1").split())
            for paragraph in told.split("\n\n")[2:]:
                if not paragraph.startswith(" "):
                    self.assertIn(" ".join(paragraph.replace("`", "").split()), text)
            for option in re.findall(r"^ +(--\w+)", told, re.M):
                self.assertIn(option, text)

    @needs("man")
    def test_each_command_has_a_line_with_its_options(self):
        """In the manual, on the page, and among what bash offers."""
        synopsis, _, rest = self.shown("archive.1").partition("\nDESCRIPTION\n")
        offered = make_deb().completion()
        self.assertEqual(re.findall(r"^ +archive ([a-z]+)", synopsis, re.M), re.findall(r"^archive ([a-z]+)", snippet("commands"), re.M))
        self.assertEqual(set(re.findall(r"^ +archive ([a-z]+)", synopsis, re.M)), set(USAGES))
        for command, usage in USAGES.items():
            options = {it.split()[0] for it in OPTIONS.get(command, [])}
            with self.subTest(command):
                [line] = re.findall(rf"^ +archive {command} .*$", synopsis, re.M)
                self.assertEqual(set(re.findall(r"(?:\[|\| )(--[a-z-]+)", line)), options)
                self.assertEqual(set(re.findall(r"--[a-z-]+", line)), options | set(re.findall(r"--[a-z-]+", usage)))
                [words] = re.findall(rf"^ *{command}\)(.*);;$", offered, re.M)
                self.assertEqual(set(re.findall(r"--[a-z-]+", words)), set(re.findall(r"--[a-z-]+", line)))
                for option in options:
                    self.assertIn(option, rest)

    def test_each_section_for_users_is_in_a_manual(self):
        """But for those that begin the page, and for what the command lines are made of."""
        manuals = tool("packaging/manuals.py")
        told = {*manuals.COMMANDS, *manuals.CONFIGURATION, "Commands", "The configuration", "An archive in five minutes"}
        self.assertEqual(set(manuals.sections("docs/USING.md")) - told, set())

    def test_nothing_of_the_pages_form_is_left(self):
        for path in self.room.iterdir():
            text = path.read_text(encoding="utf-8")
            self.assertNotIn("**", text)
            self.assertNotRegex(text, r"(?m)^\|")
            self.assertNotIn("docs/", text)


@needs("dpkg-deb", "dpkg-shlibdeps", "strip")
class Package(Room):
    """The package of a program in place of the built one."""

    def made(self, program="/bin/true", **variables):
        """Makes it, with a time of its own if no variable says another."""
        status, path, told = run(MAKE, program, self.room, env={**os.environ, "SOURCE_DATE_EPOCH": "1467436850", **variables})
        self.assertEqual((status, told), (0, ""))
        return path.strip()

    def test_what_is_in_it(self):
        deb = self.made()
        self.assertEqual(os.path.basename(deb), DEB)
        self.assertEqual(run("dpkg-deb", "-f", deb, "Package", "Version")[1], f"Package: boqitsel\nVersion: {VERSION}\n")
        root = self.room / "root"
        run("dpkg-deb", "-x", deb, root)
        run("dpkg-deb", "-e", deb, root / "DEBIAN")
        for name in ("boqitsel", "boqitsel-upload", "boqitsel-with-sidecars", "boqitsel-adopt", "boqitsel-backup"):
            self.assertTrue(os.access(root / "usr/bin" / name, os.X_OK))
            manual = root / f"usr/share/man/man1/{name}.1.gz"
            self.assertIn(b".SH NAME", gzip.decompress(manual.read_bytes()))
        self.assertIn("upload URL FILE.changes", run(root / "usr/bin/boqitsel-upload", "--help")[1])
        self.assertIn(" FOLDER\n", run(root / "usr/bin/boqitsel-with-sidecars", "--help")[1])
        self.assertIn("\nPROGRAM = \"/usr/bin/boqitsel\"\n", (root / "usr/bin/boqitsel-backup").read_text())
        units = root / "usr/lib/systemd/system"
        for name, text in (
            ("boqitsel.service", snippet("box.service", {"/usr/local/bin/archive": "/usr/bin/boqitsel"})),
            ("boqitsel-queue.service", snippet("queue.service")),
            ("boqitsel-queue.timer", snippet("queue.timer")),
            ("boqitsel-sign.service", snippet("sign.service")),
            ("boqitsel-sign.path", snippet("sign.path")),
            ("boqitsel-sign.timer", snippet("sign.timer")),
            ("boqitsel-clean.service", snippet("clean.service")),
            ("boqitsel-clean.timer", snippet("clean.timer")),
            ("boqitsel-backup.service", snippet("backup.service", {"/usr/local/bin/backup": "/usr/bin/boqitsel-backup"})),
            ("boqitsel-backup.timer", snippet("backup.timer")),
        ):
            self.assertEqual((units / name).read_text(), text)
            if name.endswith(".service"):
                self.assertIn(f"\nSyslogIdentifier={name.removesuffix('.service')}\n", text)
        examples = root / "usr/share/doc/boqitsel/examples"
        self.assertEqual((examples / "box.conf").read_text(), snippet("configuration"))
        self.assertEqual((examples / "three-suites.conf").read_text(), snippet("three suites"))
        self.assertEqual((examples / "sign").read_text(), snippet("sign"))
        self.assertEqual((examples / "sign-tree").read_text(), snippet("sign-tree"))
        self.assertTrue(os.access(examples / "sign-tree", os.X_OK))
        self.assertEqual((examples / "export.conf").read_text(), snippet("export.conf", {"/usr/local/bin/archive": "/usr/bin/boqitsel"}))
        self.assertEqual((examples / "nginx.conf").read_text(), snippet("nginx"))
        self.assertEqual((examples / "nginx-tree.conf").read_text(), snippet("tree by nginx"))
        self.assertEqual((examples / "sign.conf").read_text(), snippet("sign.conf"))
        self.assertEqual((examples / "prometheus.yml").read_text(), snippet("prometheus.yml"))
        self.assertEqual((examples / "alerts.yml").read_text(), snippet("alerts"))
        self.assertEqual({it.name for it in examples.iterdir()}, {*make_deb().EXAMPLES, "export.conf"})
        # What the lines for a signed tree copy and enable is there.
        begin = snippet("signed tree as a service")
        for name in re.findall(r"/usr/share/doc/boqitsel/examples/(\S+)", begin):
            self.assertTrue((examples / name).is_file(), name)
        for name in re.findall(r"boqitsel-\S+", begin):
            self.assertTrue((units / name).is_file(), name)
        self.assertNotIn("enable", (root / "DEBIAN/postinst").read_text())
        for name in ("postinst", "prerm", "postrm"):
            self.assertEqual(run("sh", "-n", root / "DEBIAN" / name), (0, "", ""))

    def test_the_same_files_make_the_same_package(self):
        first = pathlib.Path(self.made()).read_bytes()
        self.assertEqual(pathlib.Path(self.made()).read_bytes(), first)

    @needs("lintian")
    def test_lintian_reports_no_error(self):
        program = os.path.abspath(PROGRAM) if os.path.exists(PROGRAM) else "/bin/true"
        now = str(make_deb().moment())
        status, printed, told = run("lintian", "--allow-root", "--fail-on", "error,warning", self.made(program, SOURCE_DATE_EPOCH=now))
        self.assertEqual((status, printed), (0, ""), told)

    def test_each_version_has_its_day(self):
        """The newest has that of the package, and each other that of the page."""
        made = make_deb().changes(1467436850).splitlines()
        page = (ROOT / "CHANGELOG.md").read_text(encoding="utf-8")
        self.assertEqual([line.split()[1] for line in made if line.startswith("boqitsel ")], [f"({it})" for it in re.findall(r"^## (\S+)", page, re.M)])
        days = [time.strptime(line.partition(">  ")[2], "%a, %d %b %Y %H:%M:%S +0000") for line in made if line.startswith(" -- ")]
        self.assertEqual(time.strftime("%Y-%m-%d %H:%M:%S", days[0]), "2016-07-02 05:20:50")
        self.assertEqual([time.strftime("(%Y-%m-%d)", it) for it in days[1:]], re.findall(r"^## \S+ (.*)", page, re.M))
        self.assertEqual(days[1:], sorted(days[1:], reverse=True))

    def test_words_and_what_is_missing(self):
        self.assertEqual(run(MAKE)[0], 2)
        status, printed, told = run(MAKE, self.room / "none", self.room)
        self.assertEqual((status, printed, told.startswith("make_deb: ")), (1, "", True))

    @needs("bash")
    def test_the_completion(self):
        root = self.room / "root"
        run("dpkg-deb", "-x", self.made(), root)
        (self.room / "box.conf").touch()
        for words, wanted in (
            (["archive", "con"], ["configuration", "configure"]),
            (["boqitsel", "serve", "--m"], ["--moments"]),
            (["archive", "migrate", "--"], ["--at", "--db", "--from", "--help"]),
            (["archive", "init", "--db", "box"], ["box.conf"]),
            (["archive", "show", "--at", "x"], []),
        ):
            text = f"""
            . {root}/usr/share/bash-completion/completions/boqitsel; complete -p {words[0]} > /dev/null
            COMP_WORDS=({' '.join(words)}); COMP_CWORD={len(words) - 1}; _boqitsel; printf '%s\\n' "${{COMPREPLY[@]}}"
            """
            status, printed, told = run("bash", "-c", text, cwd=self.room)
            self.assertEqual((status, sorted(printed.split()), told), (0, wanted, ""), words)


def changes_of(deb, number):
    """A .changes of a package file, made as for uploads of tests, which is another for each number."""
    text = uploads.changes_of("boqitsel", VERSION, {deb.name: deb.read_bytes()}).decode()
    return text.replace("  * Made.", f"  * Made {number}.")


@needs_root
@needs("dpkg-deb", "dpkg-shlibdeps", "strip", "unshare", "chroot")
class Root(Room):
    """A root over this machine's, in which the package is installed."""

    def setUp(self):
        super().setUp()
        for name in ("room", "given"):
            (self.room / name).mkdir()

    def can_mount(self):
        """Whether a root of its own can be had."""
        text = 'mount -t tmpfs none "$1"; mkdir "$1/a" "$1/b" "$1/c"; mount -t overlay overlay -o "lowerdir=/,upperdir=$1/a,workdir=$1/b" "$1/c"'
        (self.room / "try").mkdir()
        return run("unshare", "-m", "sh", "-ec", text, "sh", self.room / "try")[0] == 0

    def inside(self, text, port=""):
        """Runs a text in a root that has what is in the folder `given`. Answers what it prints. What it has begun is ended with it, or after LONG seconds."""
        if not self.can_mount():
            raise no_file_system()
        (self.room / "given/inside").write_text(text)
        words = ["unshare", "-m", "sh", "-ec", OUTSIDE, "sh", self.room, str(port)]
        streams = {"stdin": subprocess.DEVNULL, "start_new_session": True}
        # Files in place of pipes: a process that is left would keep a pipe open, and whoever reads it would wait for that.
        with open(self.room / "printed", "w+b") as printed, open(self.room / "told", "w+b") as told:
            with subprocess.Popen(words, stdout=printed, stderr=told, **streams) as process:
                try:
                    status = process.wait(LONG)
                except subprocess.TimeoutExpired:
                    status = f"not ended after {LONG} seconds"
                finally:
                    with contextlib.suppress(ProcessLookupError):
                        os.killpg(process.pid, signal.SIGKILL)
        both = [(self.room / it).read_text(encoding="utf-8", errors="replace") for it in ("printed", "told")]
        self.assertEqual(status, 0, "".join(both))
        return both[0]

    def with_package(self):
        """Makes the package of a program in place of the built one."""
        status, _, told = run(MAKE, "/bin/true", self.room / "given", env={**os.environ, "SOURCE_DATE_EPOCH": "1467436850"})
        self.assertEqual((status, told), (0, ""))


class Scripts(Root):
    """What is done when the package is installed, upgraded, removed and purged."""

    @needs("update-alternatives")
    def test_what_is_of_something_else_stays(self):
        self.with_package()
        names = make_deb().NAMES
        (self.room / "given/names").write_text("".join(f"{' '.join(it)}\n" for it in names))
        given = [f"given {it}" for it, _, _ in names]
        half = [it for it in given if it not in ("given /usr/bin/archive", "given /usr/bin/upload")]
        links = ["/bin/echo", "/etc/alternatives/archive-upload", "/bin/echo"]
        self.assertEqual(self.inside(FOREIGN).splitlines(), [*given, "half", *half, *links, *links, "gone"])

    @needs("systemctl", "deb-systemd-invoke")
    def test_a_removal_ends_the_units(self):
        """It says what stays. An upgrade ends nothing."""
        self.with_package()
        (self.room / "given/systemctl").write_text(SYSTEMCTL)
        (self.room / "given/systemctl").chmod(0o755)
        parts = "-backup.timer", "-clean.timer", "-queue.timer", "-sign.path", "-sign.timer", ".service"
        enabled = [f"boqitsel{it}" for it in parts]
        *first, disabling, reloading, last = self.inside(UNITS_END).splitlines()
        self.assertEqual(first[: len(enabled) + 1], [*enabled, "again"])
        self.assertRegex(first[len(enabled) + 1], r"\Aboqitsel: all archives stay as they are, also the one in /srv/box")
        stopped = [it for line in first[len(enabled) + 1 :] for it in line.split() if it.startswith("boqitsel") and " stop " in line]
        self.assertEqual(sorted(stopped), sorted(make_deb().UNITS))
        self.assertEqual(sorted(disabling.split()[3:]), enabled)
        self.assertEqual((" disable " in disabling, reloading, last), (True, "systemctl --system daemon-reload", "none"))


@needs_file(PROGRAM)
@needs("apt-get", "curl")
class Installed(Root):
    """The package of the built program, installed."""

    def test_it_serves_its_own_package_to_apt(self):
        status, path, told = run("make", "-s", "deb", f"PROGRAM={os.path.abspath(PROGRAM)}", cwd=ROOT)
        self.assertEqual((status, told), (0, ""))
        given = self.room / "given"
        deb = given / DEB
        shutil.copy(ROOT / path.strip(), deb)
        port = free_port()
        for number, name in ((1, "one"), (2, "two")):
            (given / f"{name}.changes").write_text(changes_of(deb, number))
        (given / "steps").write_text(snippet("first steps"))
        (given / "dput.cf").write_text(snippet("dput.cf", {"archive.example.org:8080": f"127.0.0.1:{port}"}))
        printed = self.inside(INSIDE, port)
        lines = printed.splitlines()
        wanted = ["accepted one.changes", "accepted two.changes"] if "dput" in lines else ["accepted one.changes"]
        self.assertEqual([line for line in lines if line.startswith("accepted")], wanted)
        self.assertIn(f"archive {VERSION}", printed)
        self.assertIn("systemctl enable --now boqitsel.service boqitsel-queue.timer", lines)
        self.assertRegex(printed, r"(?m)^copies/\d{8}T\d{6}Z/box\.db$")
        self.assertRegex(printed, r"(?m)^after the backup: State:\t[RSD] ")
        self.assertIn("ended", lines)
        self.assertIn(f"'http://127.0.0.1:{port}/pool/main/b/boqitsel/{DEB}'", printed)
        self.assertEqual(lines[-1], "kept")


if __name__ == "__main__":
    main()
