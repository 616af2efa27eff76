"""Tests of what try_wrong_bodies reads, on a small repository."""

from tests import tools
from tests.wants import main

tool = tools.tool("checks/try_wrong_bodies")

SOURCE = "fn one() -> u8 {\n    1\n}\n\nfn two() -> u8 {\n    one() + 1\n}\n"


class WrongBodies(tools.InRepository):
    def setUp(self):
        super().setUp()
        self.write("crates/low/src/lib.rt", SOURCE)
        self.write("checks/wrong_bodies/low/is_three.edit", "file: src/lib.rt\nold: one() + 1\nnew: one() + 2\n")

    def changed(self, text):
        return tool.changed(text, str(self.root / "crates/low"))

    def edit(self, name):
        return tool.Edit("low", f"{name}.edit", str(self.root / "checks/wrong_bodies/low"), False)

    def written(self, name, old, new):
        self.write(f"checks/wrong_bodies/low/{name}.edit", f"file: src/lib.rt\nold: {old}\nnew: {new}\n")
        return self.edit(name)

    def groups(self, *edits):
        return tool.groups_of(edits, str(self.root / "crates/low"))

    def refused(self, group, *lines):
        """The names of those of a group that a check refuses which says these lines."""
        said = "\n".join([*lines, "logic=not-proved crate=low"])
        return {it.file.removesuffix(".edit") for it in tool.refused_in(said, group, str(self.root / "crates/low"))}

    def assert_fault(self, part):
        """One fault is found, and its line has this part."""
        faults = tool.faults_in(str(self.root))
        self.assertEqual(len(faults), 1, faults)
        self.assertIn(part, faults[0])

    def test_pairs_are_made_in_order(self):
        made = self.changed("file: src/lib.rt\nold: one() + 1\nnew: 9\nold: 9\nnew: 7\n")
        self.assertEqual(made, {"src/lib.rt": SOURCE.replace("one() + 1", "7")})

    def test_the_sum_of_a_crate_is_of_its_code(self):
        low = str(self.root / "crates/low")
        first = tool.sum_of_crate(low)
        for text in (SOURCE.replace("    1", "  1"), SOURCE.replace("fn two", "/// One more.\n    // A comment.\n\nfn two")):
            self.write("crates/low/src/lib.rt", text)
            self.assertEqual(tool.sum_of_crate(low), first)
        self.write("crates/low/src/lib.rt", SOURCE.replace("1", "2"))
        self.assertNotEqual(tool.sum_of_crate(low), first)

    def test_a_fitting_edit_has_no_fault(self):
        self.assertEqual(tool.faults_in(str(self.root)), [])

    def test_an_old_text_that_stands_twice(self):
        self.write("crates/low/must-fail/twice.edit", "file: src/lib.rt\nold: -> u8\nnew: -> u16\n")
        self.assert_fault("stands there 2 times")

    def test_an_old_text_that_is_gone(self):
        self.write("crates/low/src/lib.rt", SOURCE.replace("one() + 1", "2"))
        self.assert_fault("stands there 0 times")

    def test_a_file_that_is_gone(self):
        self.write("crates/low/must-fail/gone.edit", "file: src/two.rt\nold: a\nnew: b\n")
        self.assert_fault("there is no src/two.rt")

    def test_a_file_of_definitions(self):
        self.write("crates/low/must-fail/specs.edit", "file: specs/Two.antt\nold: a\nnew: b\n")
        self.assert_fault("no path below src/")

    def test_nothing_changed(self):
        self.write("crates/low/must-fail/same.edit", "file: src/lib.rt\nold: one() + 1\nnew: one() + 1\n")
        self.assert_fault("changes nothing")

    def test_an_old_text_alone(self):
        self.write("crates/low/must-fail/alone.edit", "file: src/lib.rt\nold: one() + 1\n")
        self.assert_fault("no new one")

    def test_a_second_line(self):
        self.write("crates/low/must-fail/lines.edit", "file: src/lib.rt\nold: one() + 1\nnew: one()\n    + 2\n")
        self.assert_fault("out of place")

    def test_a_name_in_capitals(self):
        self.write("crates/low/must-fail/IsThree.edit", "file: src/lib.rt\nold: one() + 1\nnew: one() + 2\n")
        self.assert_fault("lower-case")

    def test_a_name_that_stands_twice(self):
        self.write("crates/low/must-fail/is_three.edit", "file: src/lib.rt\nold: one() + 1\nnew: one() + 2\n")
        self.assertEqual(len(tool.faults_in(str(self.root))), 2)

    def test_the_ninth_of_a_crate(self):
        for number in range(9):
            self.write(f"crates/low/must-fail/by_{number}.edit", f"file: src/lib.rt\nold: one() + 1\nnew: one() + {number + 3}\n")
        self.assert_fault("at most 8 of a crate")

    def test_the_sixty_first_of_all(self):
        for number in range(61):
            crate = f"crate_{number // 8}"
            self.write(f"crates/{crate}/src/lib.rt", SOURCE)
            self.write(f"crates/{crate}/must-fail/by_{number}.edit", f"file: src/lib.rt\nold: one() + 1\nnew: one() + {number + 3}\n")
        self.assert_fault("at most 60")

    def test_a_record_forgets_what_is_gone_or_changed(self):
        path = str(self.root / "TRIED")
        record = tool.Record(path, {"low/a", "low/b"})
        record.add("low/a", "refused", "1", "2")
        record.add("low/b", "not-refused", "3", "2")
        again = tool.Record(path, {"low/b"})
        self.assertEqual([*again.tried], ["low/b"])
        self.assertTrue(again.has("low/b", "3", "2"))
        self.assertFalse(again.has("low/b", "4", "2"))
        self.assertFalse(again.has("low/b", "3", "5"))

    def test_functions_stand_between_their_lines(self):
        text = SOURCE + "\nimpl<A> Low<A> for Deep<A> {\n    /// Three.\n    #[inline]\n    pub fn three(&self) -> u8\n        ensures { result ≡ 3 }\n    {\n        3\n    }\n}\n"
        found = tool.functions_of("src/at/it.rt", text)
        self.assertEqual([it[1:] for it in found], [(("at", "it"), "one", 1, 1, 3), (("at", "it"), "two", 5, 5, 7), (("at", "it", "DeepLow"), "three", 10, 14, 16)])

    def test_those_of_two_functions_are_tried_together(self):
        is_two, is_three, is_nine = self.written("is_two", "    1", "    2"), self.edit("is_three"), self.written("is_nine", "one() + 1", "9")
        self.assertEqual([[*it] for it in self.groups(is_two, is_three, is_nine)], [[is_two, is_three], [is_nine]])

    def test_what_stands_in_no_function_is_tried_by_itself(self):
        self.assertEqual(self.groups(self.written("answers_more", "fn one() -> u8 {", "fn one() -> u16 {")), [])

    def test_a_check_refuses_those_whose_functions_it_names(self):
        (group,) = self.groups(self.written("is_two", "    1", "    2"), self.edit("is_three"))
        one, two = "note: src/lib.rt:2:5: it is not proved that", "note: src/lib.rt:5:1: it is not proved that"
        self.assertEqual(self.refused(group, one), {"is_two"})
        self.assertEqual(self.refused(group, two, one), {"is_two", "is_three"})
        self.assertEqual(self.refused(group, "proofs/two/Answers.antt:3:1: error: expected"), {"is_three"})

    def test_a_check_that_says_nothing_of_a_function_refuses_nothing_of_it(self):
        (group,) = self.groups(self.written("is_two", "    1", "    2"), self.edit("is_three"))
        for line in (
            "fn low::two: no proof: it calls `low::one`, which is not proved",
            "note: src/other.rt:2:5: it is not proved that",
            "proofs/Type/deeper/two/Answers.antt:3:1: error: expected",
            "proofs/two/Answers.antt:3:1: error: `one`: is not in scope",
        ):
            self.assertEqual(self.refused(group, line), set(), line)

    def test_a_check_that_did_not_read_its_text_refuses_nothing(self):
        (group,) = self.groups(self.written("is_two", "    1", "    2"), self.edit("is_three"))
        self.assertEqual(self.refused(group, "src/lib.rt:2:5: error: `x`: is not in scope", "src/lib.rt:6:1: error: expected"), set())
        found = tool.refused_in("note: src/lib.rt:2:5: it is not proved that", group, str(self.root / "crates/low"))
        self.assertEqual(found, {})

    def test_what_rt_says_of_an_edit(self):
        self.assertEqual(tool.result_of("refused, as it must be: src/lib.rt:7:5: error"), "refused")
        self.assertEqual(tool.result_of("refused, as it must be (only by a limit of the prover, ..): x"), "refused-by-a-limit")
        self.assertEqual(tool.result_of("NOT REFUSED: the crate is still proved with this edit"), "not-refused")
        self.assertEqual(tool.result_of("BAD EDIT: it did not reach the prover"), "bad")
        self.assertIsNone(tool.result_of("NOT TRIED: its check was killed"))

    def test_what_the_compiler_has_to_refuse(self):
        text = "error: mismatched-types\nfile: src/lib.rt\nold: one() + 1\nnew: b\"2\"\n"
        self.write("checks/wrong_bodies/low/is_text.edit", text)
        is_text, is_two = self.edit("is_text"), self.written("is_two", "    1", "    2")
        self.assertEqual((tool.error_of(is_text), tool.error_of(is_two)), ("mismatched-types", None))
        self.assertEqual(tool.faults_in(str(self.root)), [])
        self.assertEqual([[*it] for it in self.groups(is_text, is_two)], [[is_two]])
        said = "BAD EDIT: it did not reach the prover; the first lines of what it said:\nsrc/lib.rt:6:5: error[mismatched-types]: no"
        self.assertEqual([tool.result_of(said, it) for it in ("mismatched-types", "unknown-name", None)], ["refused", "bad", "bad"])
        self.write("crates/low/must-fail/is_bytes.edit", text)
        self.assert_fault("the gate has none that the compiler refuses")


if __name__ == "__main__":
    main()
