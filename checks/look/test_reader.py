"""The language read: names, words, depths, and what may stand at a place that isn't spelled."""

import unittest

from common import example, layout, text_of

from view import faults, reader, tokens, values, words
from view.trace import Fault

LONGEST = "L-ABCDEFGHIJ0123"


class Reading(unittest.TestCase):
    def test_the_examples_are_spelled(self):
        for name in ("junction.ssi", "flags.ssi", "interlock.ssi", "faults.ssi"):
            self.assertEqual(reader.read(text_of(example(name)), on=True).slips, [], name)

    def test_an_empty_layout(self):
        source = reader.read(layout())
        self.assertEqual((source.slips, source.steps, source.layout.requests), ([], [], []))

    def test_a_name_has_all_characters_that_it_may_have(self):
        source = reader.read(layout(FLG=f"{LONGEST} . L- . LZ-9 .", PRR=f"Q--0 {LONGEST}s ."))
        self.assertEqual(source.layout.flags, [LONGEST, "L-", "LZ-9"])
        self.assertEqual(source.layout.requests[0].body[0][:2], (LONGEST, "s"))

    def test_a_name_of_seventeen_characters(self):
        (slip,) = reader.read(layout(FLG=f"{LONGEST}4 .")).slips
        self.assertEqual(slip.code, "L2")

    def test_each_word_has_its_fact_and_says_what_it_means(self):
        for kind, aspects in words.ASPECTS.items():
            for aspect in aspects:
                for word in (aspect.true_word, aspect.false_word):
                    fact, value = words.fact_of(f"{kind}1", word)
                    state = {fact} if value else set()
                    self.assertEqual(words.word_now(fact, state), word)
                    self.assertIn(f"{kind}1", words.in_full(f"{kind}1", word))
        told = {word for aspects in words.ASPECTS.values() for one in aspects for word in (one.true_word, one.false_word)}
        self.assertEqual(told | set(words.FREE_TESTS) | {"h"}, reader.WORDS)

    def test_the_ninth_group_and_the_ninth_choice(self):
        group = "(" * 9 + "L1 s or L1 s" + ")or L1 s" * 8 + ")"
        text = layout(FLG="L1 .", PRR=f"Q1 if {group} then L1 s end .")
        self.assertEqual([slip.code for slip in reader.read(text).slips], ["S2"])
        choice = "if L1 s then " * 9 + "L1 s" + " end" * 9
        self.assertEqual([slip.code for slip in reader.read(layout(PRR=f"Q1 {choice} .")).slips], ["S2"])

    def test_what_may_stand_at_a_place(self):
        text = layout(FLG="L1 .", PRR="Q1 if L1 s or L1 xs then L1 s end .")
        (slip,) = reader.read(text).slips
        self.assertEqual((slip.token.text, slip.wanted), ("or", ["`,`", "`then`"]))

    def test_more_than_one_slip(self):
        text = layout("cycle 0 . panel 0 Q1 cycle 1 . cycle 2 .", TCS="T1\nT2 .\nT3 .", FLG="L1 ; L2 .\nL3 x .")
        codes = [slip.code for slip in reader.read(text, on=True).slips]
        self.assertEqual(codes, ["S1", "L1", "S1", "R1", "R1"])
        self.assertEqual(len(reader.read(text).slips), 1)

    def test_a_file_is_left_out(self):
        text = layout(FLG="L1 .").replace("file SIG\n", "")
        slips = reader.read(text, on=True).slips
        self.assertEqual([(slip.code, slip.token.text, slip.wanted) for slip in slips], [("S1", "TCS", ["`SIG`"])])

    def test_something_stands_before_the_first_file(self):
        slips = reader.read("L1 . " + layout(FLG="L1 x ."), on=True).slips
        self.assertEqual([(slip.code, slip.token.text) for slip in slips], [("S1", "L1"), ("S1", "x")])

    def test_every_cut_off_text_is_one_slip_at_its_end(self):
        text = layout(FLG="L1 .", PRR="Q1 if L1 s then L1 xs end .")
        for end in range(text.index("file IPT")):
            slips = reader.read(text[:end], on=True).slips
            self.assertTrue(slips, end)

    def test_a_file_that_is_no_utf_8(self):
        text = layout(FLG="L1 . / \xff\xc3\x28 \xe9\n# .")
        (slip,) = reader.read(text).slips
        self.assertEqual((slip.code, slip.token.text), ("L1", "#"))
        self.assertIn("\ufffd", tokens.shown("\xff"))

    def test_columns_count_bytes_and_marks_count_characters(self):
        text = "/ a\n\tL1 \xc3\xa9 x"
        line, mark = faults.marked(2, 8, tokens.Lines(text))
        self.assertEqual((line, mark), ("\tL1 é x", "\t     ^"))

    def test_of_a_long_line_a_piece_is_shown(self):
        lines = tokens.Lines("x" * 5000 + "#" + "y" * 5000)
        line, mark = faults.marked(1, 5001, lines)
        self.assertLess(len(line), 200)
        self.assertEqual(line[mark.index("^")], "#")


class Advising(unittest.TestCase):
    def test_every_code_has_its_words(self):
        advice = faults.read_advice()
        codes = {"L1", "L2", "L3", "S1", "S2", *(f"N{number}" for number in range(1, 13)), "R1", "R2", "R3", "R4"}
        self.assertLessEqual(codes, set(advice))
        for code in advice:
            self.assertTrue(advice[code].means, code)
            self.assertTrue(advice[code].to_do, code)

    def test_a_name_that_may_be_meant(self):
        text = layout(SUB="U-BRANCH on T1 .", FLG="L1 .")
        (told,) = faults.told([Fault(1, 1, "N1", "U-BRNACH", "fault 1:1 N1 U-BRNACH")], text)
        self.assertEqual(told.notes, ["U-BRANCH may be meant"])

    def test_a_fault_of_ssi_that_this_reading_does_not_find_is_told_without_a_guess(self):
        (told,) = faults.told([Fault(1, 1, "S1", "", "fault 1:1 S1")], layout())
        self.assertEqual((told.guess, told.notes), (False, []))


class Valuing(unittest.TestCase):
    def scene(self, *true, **files):
        source = reader.read(layout(**files))
        return source.layout, values.Scene(source.layout.tables(), {words.fact_of(*fact.split(":"))[0] for fact in true})

    def test_the_first_item_that_failed_in_a_group(self):
        layout_, scene = self.scene("L3:s", FLG="L1 . L2 . L3 .", PRR="Q1 if L3 s, (L1 s or L3 s, L2 s) then L1 s end .")
        seen = values.run(layout_.requests[0].body, scene)
        self.assertTrue(values.is_refused(seen))
        self.assertEqual(
            seen[0].why, ["none of the alternatives holds", "L1 s: L1 is reset", "L2 s: L2 is reset"]
        )

    def test_points_that_are_not_free(self):
        files = {"PTS": "P1 over T1 .", "TCS": "T1 .", "PFM": "P1 cr if T1 c .", "PRR": "Q1 if P1 crf then P1 cr end ."}
        layout_, scene = self.scene("T1:o", **files)
        (guarded,) = values.run(layout_.requests[0].body, scene)
        self.assertEqual(
            guarded.why,
            ["P1 crf: P1 are controlled normal and not free to go reverse", "under PFM, T1 c: T1 is occupied"],
        )

    def test_an_item_sees_what_those_before_it_did(self):
        layout_, scene = self.scene(FLG="L1 . L2 .", PRR="Q1 L1 s, if L1 s then L2 s end .")
        values.run(layout_.requests[0].body, scene)
        self.assertEqual(len(scene.state), 2)

    def test_an_else_counts_as_refused(self):
        layout_, scene = self.scene(FLG="L1 . L2 .", PRR="Q1 if L1 s then L2 s else L2 xs end, L1 s .")
        self.assertTrue(values.is_refused(values.run(layout_.requests[0].body, scene)))


class Slots(unittest.TestCase):
    def test_statements_are_dealt_out(self):
        source = reader.read(layout(FLG="L1 .", FOP="L1 s if L1 xs .\n" * 65))
        counts = [len(source.layout.statements_of(slot)) for slot in range(64)]
        self.assertEqual(counts, [2] * 32 + [1] + [0] * 31)


if __name__ == "__main__":
    unittest.main()
