"""`./look` over the built program: its pages, its faults, its expectations and its dumps, with their statuses."""

import json
import os
import re
import subprocess
import unittest

from common import BUILT, LookCase, example, layout, text_of

from view import reader, tokens

JUNCTION = text_of(example("junction.ssi"))
TRACK = {
    "TCS": "T1 .",
    "TFM": "5 track T1 at 0 .",
    "FLG": "L1 .",
    "PRR": "Q1 if T1 c then L1 s end .",
    "OPT": "5 bit 3 if L1 s .",
    "IPT": "5 if 0 h then T1 c else T1 o end .",
}


def data_of(page):
    """The data that a page has."""
    return json.loads(re.search(r'<script type="application/json" id="data">(.*?)</script>', page, re.DOTALL).group(1))


class Pages(LookCase):
    def test_a_run(self):
        page = self.page(JUNCTION)
        data = data_of(page)
        self.assertEqual((data["cycles"], data["shown"]), (640, 640))
        self.assertIn("64 - - 0:Q1 P1:cr R1:s U1:l U2:l", data["lines"])
        self.assertEqual(data["asked"], [[64, "0", "Q1", False, [], ["R1 s", "P1 cr", "U1 l", "U2 l"]]])
        self.assertShows(page, "tells S1 to show proceed")

    def test_lines_that_tell_nothing_new_are_made_of_those_before(self):
        data = data_of(self.page(JUNCTION))
        kept = {line.split(" ")[0]: line for line in data["lines"]}
        slots = {}
        for line in text_of(example("junction.trace")).splitlines():
            number, sent, arrived, *_ = line.split(" ")
            slot = int(number) % 64
            if number in kept:
                self.assertEqual(kept[number], line)
                slots[slot] = sent, arrived
            else:
                self.assertEqual(line, " ".join([number, *slots.get(slot, ("-", "-")), "-"]))

    def test_why_a_request_was_refused(self):
        script = "cycle 4 . panel 0 Q2 . panel 0 Q1 . cycle 2 . occupy T2 . cycle 64 . panel 0 Q3 . cycle 1 ."
        data = data_of(self.page(JUNCTION[: JUNCTION.index("file RUN")] + "file RUN " + script))
        self.assertEqual(
            [one[2:] for one in data["asked"]],
            [
                ["Q2", False, [], ["R2 s", "P1 cr", "U3 l", "U4 l"]],
                ["Q1", True, [["U3 f: U3 is locked"]], []],
                ["Q3", True, [["P1 cnf: P1 are controlled reverse and not free to go normal", "under PFM, T2 c: T2 is occupied"]], []],
            ],
        )

    def test_a_request_that_acts_behind_a_report_and_a_statement_of_its_slot(self):
        files = {**TRACK, "FLG": "L1 . L2 .", "FOP": "L2 s if T1 c .\n" * 6, "PRR": "Q1 if T1 c, L2 s then L1 s end ."}
        data = data_of(self.page(layout("cycle 5 . panel 0 Q1 . cycle 2 . lose 5 . cycle 63 . panel 0 Q1 . cycle 1 .", **files)))
        self.assertEqual([one[3] for one in data["asked"]], [False, True])

    def test_an_empty_layout(self):
        self.assertEqual(data_of(self.page(layout()))["lines"], [])
        self.assertEqual(data_of(self.page(layout("cycle 3 .")))["cycles"], 3)

    def test_puts_without_room(self):
        data = data_of(self.page(layout("panel 0 Q1 .\n" * 66 + "cycle 70 .", **TRACK)))
        self.assertEqual(data["lines"][:2], ["full 0 Q1 0"] * 2)
        self.assertEqual(len(data["asked"]), 64)

    def test_a_fault_of_the_script(self):
        page = self.page(layout("cycle 6 . fail T1 .", **TRACK), status=7)
        self.assertEqual(data_of(page)["cycles"], 6)
        self.assertShows(page, "<code>26:16 R3 T1</code>")

    def test_a_fault_of_the_layout(self):
        page = self.page(layout(FLG="L1 . L1 ."), status=1)
        self.assertShows(page, "N2 L1")
        self.assertIsNone(data_of(page))

    def test_no_text_becomes_markup(self):
        bad = "/ <script>alert(1)</script> \xff\n"
        for text, status in (
            (layout(FLG=f"L1 <b> . {bad}"), 1),
            (layout(f"cycle 1 ; {bad}"), 7),
            (layout(f"cycle 1 . {bad}", FLG=f"L1 . {bad}", PRR=f"Q1 L1 s . {bad}"), 0),
        ):
            page = self.page(text, status)
            self.assertFalse("<script>alert" in page)
            self.assertFalse("<b>" in page)

    def test_no_trace_is_too_long(self):
        files = {"FLG": "L1 .", "FOP": "L1 s if L1 xs .\n" + "L1 xs if L1 s .\n"}
        data = data_of(page := self.page(layout("cycle 1000000 .", **files)))
        self.assertEqual(data["cycles"], 1000000)
        self.assertLess(len(page), 4_000_000)

    def test_where_a_page_stops(self):
        page = self.page(layout("cycle 1000000 .", FLG="L1 .", FOP="L1 s if L1 xs .\n" + "L1 xs if L1 s .\n" * 63))
        self.assertFalse("lines behind them" in page)
        puts = "panel 0 Q1 . cycle 1 .\n" * 60_000
        page = self.page(layout(puts, FLG="L1 .", PRR="Q1 if L1 s then L1 xs else L1 s end ."))
        self.assertEqual(data_of(page)["shown"], 25_000)
        self.assertShows(page, "35,000 lines behind them change something too")

    def test_a_text_of_2_000_000_bytes(self):
        names = [f"L{number:07}" for number in range(512)]
        requests = "".join(f"Q{number:04} {', '.join(f'{name} s' for name in names[:150])} .\n" for number in range(1000))
        text = layout("panel 0 Q0001 . cycle 1 .", FLG=" . ".join(names) + " .", PRR=requests)
        text += "/" + "x" * (2_000_000 - len(text) - 1)
        self.assertEqual(len(data_of(self.page(text))["asked"][0][5]), 150)

    def test_words_and_files(self):
        self.look("--faults", "--vcd", "-", status=2)
        self.look(os.path.join(self.folder, "none.ssi"), status=3)
        self.look("-", "-o", os.path.join(self.folder, "no", "folder.html"), text=layout(), status=4)
        self.assertEqual(self.look(example("flags.ssi")), "flags.html\n")


class Faults(LookCase):
    def faults(self, text, status):
        return self.look("--faults", "-", text=text, status=status).splitlines()

    def test_faults_of_names(self):
        lines = self.look("--faults", example("junction_faults.ssi"), status=1).splitlines()
        told = [line.split(":")[1:3] for line in lines if line.startswith(os.sep)]
        wanted = [line.split(" ")[1].split(":") for line in text_of(example("junction_faults.faults")).splitlines()]
        self.assertEqual(told, wanted)

    def test_a_slip_and_the_guesses_behind_it(self):
        lines = self.faults(layout(FLG="L1 ;\nL2 .\nL3 x ."), 1)
        self.assertEqual(lines[0], "standard input:12:4: L1: a character that begins no token")
        self.assertEqual(lines[1:4], ["    L1 ;", "       ^", "    look: `;` stands here; `.` may stand here"])
        self.assertIn("standard input:14:4: guess S1: something else was wanted here", lines)

    def test_the_first_slip_is_the_fault_that_ssi_tells(self):
        text = layout("cycle 3 . occupy T1 .", **TRACK)
        for cut in range(0, len(text), 5):
            for bad in (text[:cut] + "# " + text[cut:], text[:cut] + text[cut + 1 :], text[:cut] + " end " + text[cut:]):
                told = subprocess.run([BUILT, "run"], input=bad.encode(), stdout=subprocess.PIPE).stdout.decode()
                fault = re.match(r"fault (\d+):(\d+) ([LS]\d|R1)$", told.splitlines()[-1]) if told else None
                slips = reader.read(bad).slips
                found = [(*tokens.Lines(bad).place(slip.token.at), slip.code) for slip in slips]
                wanted = [(int(fault.group(1)), int(fault.group(2)), fault.group(3))] if fault else []
                self.assertEqual([one for one in found if fault or not one[2].startswith("R")], wanted, bad)

    def test_no_fault(self):
        self.assertEqual(self.faults(layout(), 0), [])

    def test_a_large_input(self):
        (line,) = self.faults(" " * 2_097_153, 9)
        self.assertEqual(line, "standard input: input more than 2097152 bytes")


class Expectations(LookCase):
    def expect(self, script, status, **files):
        text = layout(script, **(files or TRACK))
        begin = text[: text.index("file RUN")].count("\n") + 1
        lines = self.look("--expect", "-", text=text, status=status).splitlines()
        return [re.sub(r"^standard input:(\d+)", lambda match: str(int(match.group(1)) - begin), line) for line in lines]

    def test_what_holds(self):
        script = "cycle 6 .\n/= T1:c L1:xs\npanel 0 Q1 . cycle 1 . /= taken L1:s 5.3:l / now\ncycle 64 . /= 5.3:h"
        self.assertEqual(self.expect(script, 0), ["look: 6 of 6 expectations hold"])

    def test_what_does_not_hold(self):
        script = "/= T1:o T1:c 5.3:l taken\npanel 0 Q1 . cycle 6 . /= T1:o L1:s taken 5.3:h T9:o L1:o"
        self.assertEqual(
            self.expect(script, 1),
            [
                "1:9: expected T1:c at the start: T1:o",
                "1:14: expected 5.3:l at the start: nothing was sent to 5 yet",
                "1:20: expected taken at the start: no request was taken yet",
                "2:27: expected T1:o after minor cycle 5: T1:c",
                "2:32: expected L1:s after minor cycle 5: L1:xs",
                "2:37: expected taken after minor cycle 5: Q1, taken in minor cycle 0, counts as refused",
                "2:43: expected 5.3:h after minor cycle 5: 5.3:l",
                "2:49: expected T9:o after minor cycle 5: there is no such fact or output",
                "2:54: expected L1:o after minor cycle 5: there is no such fact or output",
                "look: 1 of 10 expectations hold",
            ],
        )

    def test_outputs_by_name(self):
        text = JUNCTION.replace("cycle 256 .", "cycle 256 . /= S1:proceed S2:stop P1:drive-reverse P1:dr")
        self.assertEqual(self.look("--expect", "-", text=text), "look: 25 of 25 expectations hold\n")

    def test_behind_a_fault(self):
        lines = self.expect("cycle 6 . /= T1:c\nfail T1 .\n/= T1:c", 1)
        self.assertEqual(lines[0], "3:4: expected T1:c after minor cycle 5: the run ends before, with a fault")
        self.assertTrue(any("R3 T1" in line for line in lines))

    def test_examples_keep_what_they_expect(self):
        for name in ("junction.ssi", "interlock.ssi", "flags.ssi"):
            self.look("--expect", example(name))


class Dumps(LookCase):
    def dump(self, text):
        self.look("--vcd", "-o", "run.vcd", "-", text=text)
        return text_of(os.path.join(self.folder, "run.vcd"))

    def test_a_run(self):
        dump = self.dump(layout("panel 0 Q1 . cycle 6 . lose 5 . cycle 64 .", **TRACK))
        marks = {name: mark for mark, name in re.findall(r"\$var wire \d (\S+) (\S+)", dump)}
        times = dict(re.findall(r"^#(\d+)\n((?:[^#].*\n)*)", dump, re.MULTILINE))
        self.assertEqual(list(times), ["0", "1", "5", "69", "70"])
        self.assertIn(f"1{marks['Q1']}\n", times["0"])
        self.assertEqual(times["1"], f"0{marks['Q1']}\n")
        self.assertEqual(times["5"], f"b00000000 {marks['command_5']}\nb11111111 {marks['report_5']}\n0{marks['T1']}\n")
        self.assertEqual(times["69"], f"bx {marks['report_5']}\n1{marks['T1']}\n")

    def test_an_empty_run(self):
        self.assertTrue(self.dump(layout()).endswith("$end\n"))

    def test_a_layout_with_faults_has_no_dump(self):
        self.look("--vcd", "-o", "none.vcd", "-", text=layout(FLG="L1 . L1 ."), status=1)
        self.assertFalse(os.path.exists(os.path.join(self.folder, "none.vcd")))


if __name__ == "__main__":
    unittest.main()
