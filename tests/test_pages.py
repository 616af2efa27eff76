"""Tests of checks/pages: the pages as they are, and copies of which one thing is wrong."""
import pathlib
import re
import shutil
import subprocess
import tempfile
import unittest

from tests.tools import ROOT, tool
from tests.wants import main

FAULTS = "docs/FAULTS.md"

pages = tool("checks/pages")


def without(text, line):
    """A text without this line, which stands in it once."""
    return text.replace(f"{line}\n", "", 1)


class Pages(unittest.TestCase):
    @classmethod
    def setUpClass(cls):
        cls.repository = pages.Repository(ROOT)
        cls.faults = cls.repository.pages[FAULTS]
        cls.told = pages.told_by(cls.repository.sources())
        cls.found = {}

    def other(self, check, path, text):
        """What a check finds in addition if this page is another text."""
        kept = self.repository.pages[path]
        if check not in self.found:
            self.found[check] = set(check(self.repository))
        self.repository.pages[path] = text
        found = set(check(self.repository))
        self.repository.pages[path] = kept
        return found - self.found[check]

    def row(self, path, front):
        """The row of a page's tables that begins so."""
        return next(line for line in self.repository.pages[path].split("\n") if line.startswith(front))

    def test_the_pages_are_right(self):
        self.assertEqual("\n".join(pages.wrong_in(ROOT)), "")

    def test_the_sources_tell_something_of_each_kind(self):
        for one in ("P10", "N3", "S9", "C10", "F6", "Q8", "K4", "H2", "L0", "accepted", "refused 9", "payload too large", "status 2", "archive: not found"):
            self.assertIn(one, self.told)

    def test_each_row_of_faults_is_wanted(self):
        for row in (line for line in self.faults.split("\n") if line.startswith("| `")):
            name = pages.key(row.split("|")[1].strip())
            self.assertIn(f"{FAULTS}: {name} is missing", pages.differences(without(self.faults, row), self.told))

    def test_each_line_of_a_fault_is_wanted(self):
        """What gives a fault, a verdict or a line of the program is taken out of a source: each line, with those that give the same."""
        gone = set()
        for text in self.repository.sources():
            lines = re.findall(r'^.*(?:"[A-Z]\d|Verdict::\w+ => \d|Fault::\w+(?:\(_\))? => \d|(?:#\[error\(|writeln!\(rt\.stderr\(\), )"archive: [^{]).*$', text, re.M)
            for line in lines:
                left = text
                for same in {it for it in lines if pages.told_in(it) == pages.told_in(line)}:
                    left = without(left, same)
                gone |= pages.told_in(text) - pages.told_in(left)
        alone = {name for name in self.told if re.fullmatch(r"[A-Z]\d+|refused \d+|accepted|archive: .*", name)}
        self.assertEqual(alone - gone, set())
        for name in gone:
            self.assertIn(f"{FAULTS}: {name} is in no source", pages.differences(self.faults, self.told - {name}))

    def test_each_reply_of_the_sources_is_wanted(self):
        sources = "\n".join(self.repository.sources())
        for constant in set(re.findall(r"StatusCode::([A-Z_]+)\b", sources)):
            told = self.told - pages.told_in(f"StatusCode::{constant}") | pages.told_in("StatusCode::IM_A_TEAPOT")
            name = constant.replace("_", " ").lower()
            self.assertLessEqual({f"{FAULTS}: {name} is in no source", f"{FAULTS}: im a teapot is missing"}, set(pages.differences(self.faults, told)))

    def test_a_row_has_a_meaning_and_something_to_do(self):
        row = self.row(FAULTS, "| `Q6`")
        bare = "|".join([*row.split("|")[:3], " ", ""])
        self.assertNotEqual(list(pages.differences(self.faults.replace(row, bare), self.told)), [])
        self.assertIn(f"{FAULTS}: Q6 stands twice", pages.differences(self.faults.replace(row, f"{row}\n{row}"), self.told))

    def test_a_long_readme_is_refused(self):
        for text, count in (("a\n" * 100, 0), ("a\n" * 101, 1), ("a" * 100, 0), ("a" * 101, 1)):
            self.assertEqual(len(self.other(pages.check_lengths, "README.md", text)), count)

    def test_what_is_not_there_is_refused(self):
        for named in (
            "`crates/keep/src/nothing.rt`",
            "tests/nothing",
            "`python3 -m tests.nothing`",
            "docs/NOTHING.md",
            "`specs/Nothing`",
            "`no_such_" "function`",
            "`Keeper::nosuch" "call`",
            "`NoSuch" "Type`",
        ):
            self.assertEqual(len(self.other(pages.check_names, "docs/OPEN.md", f"It is {named}, says a page.")), 1, named)

    def test_what_is_there_is_taken(self):
        for named in ("`crates/keep/src/lib.rt`", "checks/pages", "`python3 -m tests.run`", "`specs/Book`", "`Keeper`", "`Archive::drive`", "crates/NAME/src", "[it](DECISIONS.md)"):
            self.assertEqual(self.other(pages.check_names, "docs/OPEN.md", f"It is {named}, says a page."), set(), named)

    def test_a_crate_without_a_room_is_refused(self):
        path = "docs/ARCHITECTURE.md"
        page, row = self.repository.pages[path], self.row(path, "| vers |")
        self.assertIn(f"{path}: the crate vers is missing", self.other(pages.check_crates, path, without(page, row)))
        more = page.replace(row, f"{row}\n{row.replace('vers', 'nothing', 1)}")
        self.assertIn(f"{path}: there is no crate nothing", self.other(pages.check_crates, path, more))

    def test_a_page_that_no_page_leads_to_is_refused(self):
        for naming, path in (("README.md", "docs/USING.md"), ("docs/FIGURES.md", "bench/FIGURES.md")):
            found = self.other(pages.check_crates, naming, self.repository.pages[naming].replace(path, "a page"))
            self.assertEqual(found, {f"{naming}: it does not say where {path} is"})

    def test_a_crate_of_which_nothing_is_said_is_refused(self):
        path = "docs/PROVED.md"
        page = self.repository.pages[path]
        several = re.search(r"^### (\w+, .*)$", page, re.M)[1]
        for crates in (["vers"], several.split(", ")):
            title = f"### {', '.join(crates)}\n"
            self.assertEqual(page.count(title), 1)
            wanted = {f"{path}: the crate {it} is missing" for it in crates}
            for other in ("", f"{title}\n", f"{title}### nothing\n"):
                found = self.other(pages.check_crates, path, page.replace(title, other))
                self.assertEqual(found, wanted | {f"{path}: there is no crate nothing"} if "nothing" in other else wanted)

    def test_a_crate_that_is_not_drawn_is_refused(self):
        path = "docs/ARCHITECTURE.md"
        page = self.repository.pages[path]
        found = self.other(pages.check_crates, path, page.replace("sums    vers", "sums", 1))
        self.assertEqual(found, {f"{path}: the crate vers is not drawn"})

    def test_a_table_that_is_drawn_otherwise_is_refused(self):
        path = "docs/ARCHITECTURE.md"
        page = self.repository.pages[path]
        for there, here, name, what in (
            ("      +-- files       path, body ", "      +-- files       path, print ", "files", "columns"),
            ("    dates       suite, moment ", "    dates       moment, suite ", "dates", "columns"),
            ("      +-- wants       upload", "    wants       upload", "wants", "references"),
        ):
            self.assertEqual(page.count(there), 1, there)
            found = self.other(pages.check_tables, path, page.replace(there, here))
            self.assertEqual(found, {f"{path}: the table {name} is not drawn with its {what}"})
        self.assertEqual(len(list(pages.tables_of(self.repository.texts["crates/tables/src/schema.rt"])[0])), 11)

    def test_a_limit_that_is_elsewhere_is_refused(self):
        path = "docs/ARCHITECTURE.md"
        page, row = self.repository.pages[path], self.row(path, "| 256 entries")
        for there, here, wanted in (
            ("MOST_FILES", "MOST_SUITES", "MOST_SUITES is in no file of the row: 256 entries of a list of files"),
            ("lists.rt", "lines.rt", "MOST_FILES is in no file of the row: 256 entries of a list of files"),
            ("`MOST_FILES`, crates/sums/src/lists.rt", "in sums", "no file is named that decides: 256 entries of a list of files"),
        ):
            self.assertEqual(self.other(pages.check_limits, path, page.replace(row, row.replace(there, here))), {f"{path}: {wanted}"})
        found = self.other(pages.check_limits, path, page.replace("## Limits and numbers", "## Limits"))
        self.assertEqual(found, {f"{path}: Limits and numbers has no row"})

    def test_a_long_item_is_refused(self):
        path = "docs/PROVED.md"
        page = self.repository.pages[path]
        for form in ("- {}\n", "- a\n  b {}\n", "  - {}\n", "| a | {} |\n"):
            spare = 60 - len(form.format("").replace("|", "").split()) + form.count("|") // 3
            for count, wanted in ((spare, 0), (spare + 1, 1)):
                found = self.other(pages.check_lengths, path, f"{page}\n{form.format(' '.join(['word'] * count))}")
                self.assertEqual(len(found), wanted, form)

    def test_a_layout_that_no_row_opens_is_refused(self):
        path = "docs/OPERATING.md"
        page, row = self.repository.pages[path], self.row(path, "| 3 |")
        self.assertEqual(self.other(pages.check_layouts, path, without(page, row)), {f"{path}: Upgrading does not say what opens layout 3"})
        self.assertEqual(len(self.other(pages.check_layouts, path, page.replace(row, "| 3 | |"))), 1)
        more = self.other(pages.check_layouts, path, page.replace(row, f"{row}\n{row.replace('3', '12345', 1)}"))
        self.assertEqual(more, {f"{path}: Upgrading has a row for layout 12345, and there is no tests/archives/12345.db"})
        kept = self.repository.files
        self.repository.files = [*kept, "tests/archives/12345.db"]
        found = list(pages.check_layouts(self.repository))
        self.repository.files = kept
        self.assertEqual(found, [f"{path}: Upgrading does not say what opens layout 12345"])

    def test_a_layout_that_the_program_makes_is_wanted(self):
        path = "crates/tables/src/meta.rt"
        kept = self.repository.texts[path]
        self.repository.texts[path] = kept.replace("VERSION: u64 = 3;", "VERSION: u64 = 12345;")
        found = list(pages.check_layouts(self.repository))
        self.repository.texts[path] = kept
        self.assertEqual(found, ["docs/OPERATING.md: Upgrading does not say what opens layout 12345"])

    def test_a_version_without_its_section_is_refused(self):
        page = self.repository.pages["CHANGELOG.md"]
        for text, count in ((f"# What differs\n\n## 12.3.45\n\n{page}", 1), ("# What differs\n", 1), (f"{page}\n## 0.0.1\n", 0)):
            self.assertEqual(len(self.other(pages.check_version, "CHANGELOG.md", text)), count, text)

    def test_a_diary_is_refused(self):
        for words in (
            "The state before this one was well.",
            "No fault was seen.",
            "It is right today.",
            "On 2026-01-02 it was so.",
            "It has 261 wrong bodies.",
            "It takes GATE_MINUTES.",
            "It takes SMALL_KIB.",
        ):
            self.assertEqual(len(self.other(pages.check_diary, "docs/OPEN.md", words)), 1, words)
            self.assertEqual(self.other(pages.check_diary, "CHANGELOG.md", words), set(), words)
        self.assertEqual(self.other(pages.check_diary, "docs/OPEN.md", 'The line `today 0`, or {"today":0}.'), set())

    def test_a_comment_is_refused(self):
        for text, count in (("A line.\n<!-- a note\nof two lines -->\n", 1), ("a <! b, c -- d and e --> f", 0)):
            self.assertEqual(len(self.other(pages.check_comments, "docs/OPEN.md", text)), count, text)

    def test_a_file_at_the_top_that_no_page_names_is_refused(self):
        kept = self.repository.tops
        self.repository.tops = [*kept, "NOTES", "notes.md", "akefile", "Makefil", ".git-blame"]
        found = list(pages.check_tops(self.repository))
        self.repository.tops = kept
        self.assertEqual(found, [f"{it}: no page says what it is" for it in ("NOTES", "notes.md", "akefile", "Makefil", ".git-blame")])

    def test_the_command_tells_it(self):
        row = self.row(FAULTS, "| `K2`")
        with tempfile.TemporaryDirectory() as room:
            for name in (*pages.FOLDERS, "docs"):
                shutil.copytree(ROOT / name, f"{room}/{name}", ignore=shutil.ignore_patterns("out", "__pycache__"))
            for name in self.repository.tops:
                shutil.copy(ROOT / name, room)
            well = subprocess.run([f"{room}/checks/pages"], capture_output=True, text=True, check=False)
            pathlib.Path(room, FAULTS).write_text("<!-- -->\n" + without(self.faults, row), encoding="utf-8")
            pathlib.Path(room, "NOTES").write_text("A stray file.\n", encoding="utf-8")
            ill = subprocess.run([f"{room}/checks/pages"], capture_output=True, text=True, check=False)
        self.assertEqual((well.returncode, well.stdout), (0, ""))
        self.assertEqual(ill.returncode, 1)
        wanted = [f"{FAULTS}: K2 is missing", "NOTES: no page says what it is", f"{FAULTS}:1: a comment that a reader does not see"]
        self.assertEqual(ill.stdout.splitlines(), wanted)


if __name__ == "__main__":
    main()
