"""Tests of docs/USING.md and docs/OPERATING.md over the built program: what `check` prints of the configuration there, what `why` prints, the keys of
`--json`, and a tree that gpg signs. If gpg is not there, the test says that it was skipped."""
import json
import pathlib

from tests import snippets
from tests.program import DATA, NAMES, PROGRAM
from tests.snippets import snippet
from tests.wants import main, needs, needs_file

# The moment that the page has in its example: Sat, 02 Jul 2016 05:20:50 UTC.
AT = 1467436850


def keys(line):
    return sorted(json.loads(line))


@needs_file(PROGRAM)
class Words(snippets.Case):
    def test_what_a_configuration_says(self):
        self.room.write("work/box.conf", snippet("configuration", {"Uploaders:": "Uploader:"}))
        self.assertEqual(self.room.run("archive check box.conf", self.room.work), (1, snippet("check"), ""))

    def archive(self):
        """An archive that shows an upload, and one more .changes that waits for its files."""
        self.room.write("work/box.conf", snippet("configuration"))
        paths = " ".join(f"{DATA}/{name}" for name in NAMES)
        self.shell(f"archive init --db box.db --at 1 box.conf && archive put --db box.db --at 1 {paths} && archive run --db box.db --at 1", self.room.work)

    def test_keys_of_lines_for_scripts(self):
        listed, waiting, judged = snippet("json").splitlines()
        self.archive()
        found = self.shell("archive list --db box.db --json box", self.room.work).splitlines()
        self.assertEqual([keys(it) for it in found], [keys(listed)] * len(found))
        self.assertEqual(sorted(json.loads(found[0])["files"][0]), sorted(json.loads(listed)["files"][0]))
        [line] = self.shell("archive verdicts --db box.db --json", self.room.work).splitlines()
        self.assertEqual(keys(line), keys(judged))
        self.shell(f"cp {DATA}/{NAMES[0]} other.changes && archive put --db box.db --at 100000000 other.changes", self.room.work)
        for line in self.shell("archive waiting --db box.db --at 100000000 --json", self.room.work).splitlines():
            self.assertEqual(keys(line), keys(waiting))

    def why(self, changes, other):
        """Makes an archive to which the three files come, in one of which some words are others, and runs its queue."""
        self.room.write("work/box.conf", snippet("configuration"))
        for name in NAMES:
            text = pathlib.Path(DATA, name).read_text(encoding="utf-8")
            self.room.write(f"work/{name}", snippets.changed(text, changes) if name == other else text)
        self.shell(f"archive init --db box.db --at {AT} box.conf && archive put --db box.db --at {AT} {' '.join(NAMES)}", self.room.work)
        self.shell(f"archive run --db box.db --at {AT}", self.room.work)

    def test_why_an_upload_waits(self):
        self.why({"abc": "ab"}, NAMES[1])
        for words in (NAMES[0], "", f"--at {AT}"):
            self.assertEqual(self.shell(f"archive why --db box.db {words}", self.room.work), snippet("waits"))
        wanted = json.loads(snippet("waits as JSON"))
        digests = [line.split()[-1] for line in snippet("waits").splitlines() if not line.startswith(" since ")]
        for it, digest in zip((wanted, *wanted["lacks"], *wanted["came"]), digests):
            self.assertEqual(it["sha256"], f"{digest[:4]}..")
            it["sha256"] = digest
        self.assertEqual(json.loads(self.shell("archive why --db box.db --json", self.room.work)), wanted)

    def test_where_a_package_is(self):
        self.archive()
        self.assertEqual(self.shell(snippet("where it is"), self.room.work), "box hello 1.0-1 amd64 main hello\n")
        [line] = self.shell("archive list --db box.db --json", self.room.work).splitlines()
        self.assertEqual(keys(line), sorted([*keys(snippet("json").splitlines()[0]), "suite"]))

    @needs("gpg", "apt-get")
    def test_a_tree_that_gpg_signs(self):
        """gpg and apt take its signature, the latter by a .sources file with the key in place of trust, and not without the key."""
        self.archive()
        self.room.run("gpg --batch --quiet --passphrase '' --quick-generate-key archive@example.org")
        self.addCleanup(self.room.run, "gpgconf --kill all")
        status, printed, told = self.room.run(snippet("signed tree"), self.room.work)
        self.assertEqual(status, 0, told)
        self.assertRegex(printed, r"\Ashown box \.box\.[0-9a-f]{32}\npool 0 1 0 0\n\Z")
        for words in ("InRelease", "Release.gpg www/dists/box/Release"):
            status, _, told = self.room.run(f"gpg --batch --verify www/dists/box/{words}", self.room.work)
            self.assertEqual(status, 0, told)
        self.shell("gpg --export archive@example.org > key.gpg", self.room.work)
        for key, wanted in (("key.gpg", 0), ("none.gpg", 100)):
            here = {"http://archive.example.org:8080/": f"file:{self.room.work}/www/", "Trusted: yes": f"Signed-By: {self.room.work}/{key}"}
            self.room.apt(snippet("sources", here))
            status, printed, told = self.room.run("apt-get -o APT::Update::Error-Mode=any update", self.room.work)
            self.assertEqual((status, "signed" in told), (wanted, wanted != 0), printed + told)


if __name__ == "__main__":
    main()
