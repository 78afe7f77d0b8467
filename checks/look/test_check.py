"""The part of the page that shows the answer of `ssi check`, on made answers."""

import unittest

from common import example, layout, text_of

from view import checks, reader

JUNCTION = text_of(example("junction.ssi"))


def section(text, *lines):
    """The part of the page, and that of its rule without the elements' attributes."""
    return str(checks.section(lines, reader.read(text).layout, text))


class Checks(unittest.TestCase):
    def test_a_conflict(self):
        text = JUNCTION.replace("U3 f, U4 f then", "U3 f then")
        shown = section(text, "broken Q1 2 conflict P1:cr U4:l", "kept 11 of 12")
        self.assertIn('<mark class="breach" title="this command makes the breach">U1 l</mark>', shown)
        self.assertIn('<mark class="held" title="holds">U3 f</mark>', shown)
        self.assertIn('<mark class="done" title="this command has acted before">R1 s</mark>', shown)
        self.assertIn("U1 and U4 are locked, all on T2", shown)
        self.assertIn("kept 11 of 12", shown)

    def test_a_lie(self):
        text = JUNCTION.replace("R1 s, P1 cr, U1 l, U2 l", "R1 s, U1 l, P1 cr, U2 l")
        shown = section(text, "broken Q1 1 lie", "kept 11 of 12")
        self.assertIn("U1 is locked and needs P1 cr, and P1 are controlled otherwise", shown)
        self.assertIn("nothing else: nothing", shown)

    def test_an_occupied_track(self):
        text = JUNCTION.replace("P1 cr if T2 c .", "P1 cr if U4 f .")
        shown = section(text, "broken Q2 1 occupied T2:o", "kept 10 of 12")
        self.assertIn("T2 is occupied, and P1 lie over it", shown)

    def test_a_locked_way(self):
        text = JUNCTION.replace("Q3 if P1 cnf then P1 cn end .", "Q3 P1 cn .")
        shown = section(text, "broken Q3 0 locked P1:cr U1:l", "kept 11 of 12")
        self.assertIn("U1 is locked and needs P1", shown)

    def test_a_statement(self):
        text = JUNCTION.replace("file FOP\n", "file FOP\nP1 cn if R1 s .\n")
        shown = section(text, "broken fop/0 0 locked P1:cr R1:s U1:l", "kept 12 of 13")
        self.assertIn('<mark class="breach" title="this command makes the breach">P1 cn</mark>', shown)
        self.assertIn('<mark class="held" title="holds">R1 s</mark>', shown)

    def test_a_wide_rule(self):
        self.assertIn("131,089 cases", section(layout(FLG="L1 .", PRR="Q1 L1 s ."), "wide Q1 131089", "kept 0 of 1"))


if __name__ == "__main__":
    unittest.main()
