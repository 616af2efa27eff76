"""Tests of checks/words, on a small repository: which words of which comments it counts, and when there are too many."""
import shutil
import subprocess

from tests.tools import ROOT, InRepository, tool
from tests.wants import main

words = tool("checks/words")

CODE = "crates/low/src/lib.rt"
DEFINITIONS = "crates/low/specs/Low.antt"
TOOL = "tests/low.py"


class Words(InRepository):
    def counted(self, path, text):
        """What is counted in a repository that has this file alone: the kind of each place, and the number of its line."""
        self.write(path, text)
        found = words.places_in(self.root)
        (self.root / path).unlink()
        return sorted((kind, int(place.split(":")[1])) for kind, places in found.items() for place in places if place.startswith(f"{path}:"))

    def test_comments_and_docstrings_count(self):
        code = "//! It is told.\n\n/// The same.\nfn one() -> u8 {\n    1 // behind two\n}\n"
        self.assertEqual(self.counted(CODE, code), [("The same", 3), ("behind", 5), ("told", 1)])
        definitions = "-- the same, behind it\none : ℕ\none = 1\n  -- told\n"
        self.assertEqual(self.counted(DEFINITIONS, definitions), [("The same", 1), ("behind", 1), ("told", 4)])
        in_python = '"""What is told."""\n\n\ndef one():\n    """Behind\n    it."""\n    return 1  # so many\n'
        self.assertEqual(self.counted(TOOL, in_python), [("behind", 5), ("so many", 7), ("told", 1)])
        self.assertEqual(self.counted("bin/low", "#!/usr/bin/env python3\n# told, and told\n"), [("told", 2), ("told", 2)])
        self.assertEqual(self.counted("packaging/low.bash", "# so many\none=1\n"), [("so many", 1)])

    def test_code_and_strings_do_not(self):
        code = 'fn told(behind: u8) -> &str {\n    "// told \\" // behind"\n}\n\nconst ONE: &str = "\n// told";\n'
        self.assertEqual(self.counted(CODE, code), [])
        quotes = "const ONE: u8 = b'\"';\n// told\nconst TWO: &str = r#\"\"// told\"#;\nfn one<'a>(told: &'a u8) {}\n"
        self.assertEqual(self.counted(CODE, quotes), [("told", 2)])
        self.assertEqual(self.counted(DEFINITIONS, 'told : ℕ → List ℕ\ntold behind--told = codes "-- told"\n'), [])
        self.assertEqual(self.counted(TOOL, 'told = "# told"\nbehind = """The same, told."""\n'), [])

    def test_what_is_in_back_quotes_and_what_is_a_place_do_not(self):
        self.assertEqual(self.counted(CODE, "/// By `told` and `behind`, behind a proxy, or behind the other\n/// proxy. It untold, tells.\n"), [])

    def test_words_in_two_lines_count_and_those_in_a_sentence_do_not(self):
        self.assertEqual(self.counted(CODE, "/// It takes so\n/// many. The\n/// same again.\n"), [("The same", 3), ("so many", 2)])
        self.assertEqual(self.counted(CODE, "/// It has the same. Both The same\n/// and the same.\n"), [])

    def test_other_files_are_not_read(self):
        for path in ("crates/low/must-fail/low.edit", "crates/low/low.rt", "docs/low.py", "tests/low.rows", "packaging/out/low", "checks/low/low.edit"):
            self.assertEqual(self.counted(path, "# told\n// told\n-- told\n"), [], path)

    def test_from_a_number_on_they_are_too_many(self):
        (self.root / "checks").mkdir()
        shutil.copy(ROOT / "checks/words", self.root / "checks")
        for number, status in ((words.TOO_MANY - 1, 0), (words.TOO_MANY, 1)):
            self.write(CODE, "/// It is told.\n" * number)
            ran = subprocess.run([self.root / "checks/words"], capture_output=True, text=True, check=False)
            lines = [f"words: {count} of '{kind}' in comments" for kind, count in (("behind", 0), ("so many", 0), ("told", number), ("The same", 0))]
            lines[3:3] = [f"{CODE}:{it}: /// It is told." for it in range(1, number + 1)] if status else []
            self.assertEqual((ran.returncode, ran.stdout.splitlines(), ran.stderr), (status, lines, ""))


if __name__ == "__main__":
    main()
