"""Tests of the files crates/*/data/*.texts. A program of rows reads the files in its own data alone, so a file that several programs need is in
the data of each: those of one name have to be the same. Neither tests/lines/samples.texts nor a text that stands in a file of rows is read.

The index texts in these files belong to the layout of the tables: an archive keeps its index texts, and an opening compares them byte for
byte with what the program writes. The file tests/archives/N.texts has a line for each of them, with the name and the SHA-256 that it has in layout N."""
import collections
import hashlib
import pathlib
import re
import unittest

from tests.test_archives import ARCHIVES, layout
from tests.tools import ROOT
from tests.wants import main

INDEX_TEXT = re.compile(r"^text (\S+\.(?:Packages|Sources|Release))\n((?:\|.*\n)+)", re.M)


def index_texts():
    """The index texts of these files, by the file that they stand in and their name."""
    found = {}
    for path in sorted(pathlib.Path(ROOT, "crates").glob("*/data/*.texts")):
        for name, lines in INDEX_TEXT.findall(path.read_text(encoding="utf-8")):
            text = "".join(line[1:] for line in lines.splitlines(keepends=True))
            found[f"{path.name}:{name}"] = hashlib.sha256(text.encode()).hexdigest()
    return found


class Texts(unittest.TestCase):
    def test_files_of_one_name_are_the_same(self):
        held = collections.defaultdict(list)
        for path in sorted(pathlib.Path(ROOT, "crates").glob("*/data/*.texts")):
            held[path.name].append(path)
        self.assertTrue(held)
        for one, *others in held.values():
            for other in others:
                self.assertEqual(one.read_bytes(), other.read_bytes(), f"{one.relative_to(ROOT)} and {other.relative_to(ROOT)}")

    def test_index_texts_are_those_of_the_layout(self):
        """One that differs makes each archive of this layout K4, so it needs a new number."""
        lines = (ARCHIVES / f"{layout()}.texts").read_text(encoding="utf-8").splitlines()
        known = {name: digest for digest, name in (line.split("  ") for line in lines)}
        texts = index_texts()
        self.assertLessEqual({"shared.texts:hello.Packages", "shared.texts:hello.Release"}, set(known))
        for name, digest in texts.items():
            self.assertIn(name, known, f"tests/archives/{layout()}.texts has no line for this text")
            self.assertEqual(digest, known[name], f"{name} has other bytes, and archives of layout {layout()} keep those that it had: raise the number of the layout")
        self.assertEqual(set(known), set(texts), "a line is of no text")


if __name__ == "__main__":
    main()
