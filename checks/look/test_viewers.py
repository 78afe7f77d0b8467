"""What `./look` writes, opened by programs that aren't ours: a browser, and a reader of value change dumps."""

import os
import re
import subprocess
import unittest

from common import LookCase, example, find, layout, text_of

from view import main, page, program

JUNCTION = text_of(example("junction.ssi"))

# A layout with one of each kind, and a script in which all of it changes.
EVERY = {
    "PTS": "P1 over T1 .",
    "SIG": "S1 .",
    "TCS": "T1 .",
    "RTE": "R1 from S1 by U1 .",
    "SUB": "U1 on T1 with P1 cr .",
    "FLG": "L1 .",
    "TFM": "1 points P1 at 0 .\n2 signal S1 at 0 .\n3 track T1 at 0 .",
    "PRR": "Q1 R1 s, R1 xa, U1 l, L1 s, P1 cr .\nQ2 if L1 xs then L1 s end .",
    "OPT": "1 bit 0 if P1 cn bit 1 if P1 cr .\n2 bit 0 if R1 s .\n3 bit 5 if L1 s .",
    "IPT": "1 if 0 h then P1 dn else P1 xdn end, if 1 h then P1 dr else P1 xdr end .\n"
    "2 if 0 h then S1 lp else S1 xlp end .\n3 if 0 h then T1 c else T1 o end .",
}
EVERY_SCRIPT = "cycle 4 . panel 0 Q1 . panel 0 Q2 . cycle 64 . lose 3 . raw 1 0 0 0 0 . cycle 256 . dead 3 . cycle 64 ."

# Uses the page by its keys, buttons and filter, and tells what its line says each time.
HANDS = """
const told = [];
const tell = () => told.push(byId("line").textContent);
const press = (key, more) => document.dispatchEvent(new KeyboardEvent("keydown", { key, bubbles: true, ...more }));
press("ArrowRight"); tell();
press("ArrowRight", { shiftKey: true }); tell();
press("ArrowLeft"); tell();
byId("back").click(); tell();
press("Home"); tell();
for (const key of ["+", "+", "PageDown", "PageUp", "-", "0"]) press(key);
press("End"); tell();
byId("filter").value = "t2";
byId("filter").dispatchEvent(new Event("input"));
told.push([...document.querySelectorAll("#labels div")].map((label) => label.textContent).join());
document.querySelector("#requests button").click(); tell();
document.body.dataset.told = told.join(" | ");
"""


class Browser(LookCase):
    def shown(self, page, *words):
        """The markup of a page once its script has run, at a width."""
        chromium = find("chromium", "the pages in a browser", "chromium")
        profile = os.path.join(self.folder, "profile")
        run = subprocess.run(
            [chromium, "--headless", "--no-sandbox", "--disable-gpu", f"--user-data-dir={profile}", *words, "--dump-dom",
             f"file://{self.folder}/{page}"],
            stdout=subprocess.PIPE, stderr=subprocess.DEVNULL, timeout=120,
        )
        markup = run.stdout.decode()
        self.assertShows(markup, "</html>")
        self.assertFalse("data-error" in markup, re.findall("data-error=[^>]*", markup))
        return markup

    def test_the_junction(self):
        self.look(example("junction.ssi"))
        for width in ("1280,900", "420,800"):
            markup = self.shown("junction.html#258", f"--window-size={width}")
            for text in ("258 8201FE7D 42FF00BD -", "▶ proceed", "✓ P1 needs reverse", "clear, locked", "told to show"):
                self.assertShows(markup, text)
        self.assertShows(self.shown("junction.html#64"), "64 - - 0:Q1 P1:cr R1:s U1:l U2:l")
        self.assertShows(self.shown("junction.html#579"), "579 8300FF7C 43FF00BC -")

    def test_the_faults(self):
        self.look(example("junction_faults.ssi"), status=1)
        markup = self.shown("junction_faults.html")
        self.assertShows(markup, "U-BRANCH may be meant")
        self.assertShows(markup, "What to do: ")

    def test_a_fault_of_the_script(self):
        self.look(example("faults.ssi"), status=7)
        markup = self.shown("faults.html#66")
        self.assertShows(markup, "R3 T-NEAR")
        self.assertShows(markup, "66 8201FE7D 42FF00BD -")

    def test_a_broken_junction(self):
        text = JUNCTION.replace("U3 f, U4 f then", "U3 f then").replace("panel 0 Q1 .", "panel 0 Q2 . panel 0 Q1 .")
        self.look("-", "-o", "broken.html", text=text)
        self.assertShows(self.shown("broken.html"), "U3 f: U3 is locked")

    def test_50_000_changes(self):
        text = layout("panel 0 Q1 . cycle 1 .\n" * 30_000, FLG="L1 .", PRR="Q1 if L1 s then L1 xs else L1 s end .")
        self.look("-", "-o", "long.html", text=text)
        self.assertShows(self.shown("long.html#24999"), "24999 - - 0:Q1 L1:xs")

    def test_keys_buttons_and_the_filter(self):
        self.look(example("junction.ssi"))
        path = os.path.join(self.folder, "junction.html")
        with open(path, encoding="utf-8") as file:
            written = file.read()
        with open(path, "w", encoding="utf-8") as file:
            file.write(written.replace("begin();\n\n</script>", f"begin();\n{HANDS}</script>"))
        (told,) = re.findall('data-told="([^"]*)"', self.shown("junction.html"))
        self.assertEqual(told.split(" | "), [
            "65 8102FD7E 4104FBBE - P1:xdn", "66 8200FF7D 42FF00BD -", "65 8102FD7E 4104FBBE - P1:xdn",
            "64 - - 0:Q1 P1:cr R1:s U1:l U2:l", "the start: no minor cycle was made yet", "639 - - -",
            "tracks,T2", "64 - - 0:Q1 P1:cr R1:s U1:l U2:l",
        ])

    def test_each_kind_has_its_lane(self):
        text = layout(EVERY_SCRIPT, **EVERY)
        self.look("-", "-o", "every.html", text=text)
        markup = self.shown("every.html")
        labels = re.findall('<div class="name" title="([^"]*)"', markup)
        self.assertEqual(labels, [
            "T1", "S1 lamp", "S1 told", "P1 controlled", "P1 detected", "P1 driven", "R1", "R1 barred", "U1", "L1",
            "Q1", "Q2", "3.5 told", "1 report", "3 report",
        ])
        for group in ("tracks", "signals", "points", "routes", "sub-routes", "flags", "requests", "telegrams"):
            self.assertShows(markup, f'<div class="group">{group}</div>')

    def test_the_check(self):
        broken = JUNCTION.replace("U3 f, U4 f then", "U3 f then").encode()
        shown = main.show("broken", broken, program.Progress())
        answer = ["broken Q1 2 conflict P1:cr U4:l", "wide Q3 131089", "kept 10 of 12"]
        with open(os.path.join(self.folder, "check.html"), "w", encoding="utf-8") as file:
            file.write(page.page_of(shown._replace(check=answer)))
        markup = self.shown("check.html")
        self.assertShows(markup, '<a href="#check">The check</a>')
        self.assertShows(markup, "U1 and U4 are locked, all on T2")

    def test_markup_stays_text(self):
        text = layout(FLG="L1 . / <img src=x onerror=document.body.dataset.error=1>\nL1 .")
        self.look("-", "-o", "markup.html", text=text, status=1)
        self.shown("markup.html")


class Waves(LookCase):
    def test_gtkwave_reads_the_dump(self):
        reader = find("vcd2fst", "the dump opened by GTKWave's reader", "gtkwave")
        self.look("--vcd", example("junction.ssi"))
        run = subprocess.run(
            [reader, "junction.vcd", "junction.fst"], cwd=self.folder, stdout=subprocess.PIPE, stderr=subprocess.STDOUT
        )
        self.assertEqual(run.returncode, 0, run.stdout)
        self.assertNotIn(b"rror", run.stdout)
        self.assertGreater(os.path.getsize(os.path.join(self.folder, "junction.fst")), 0)


if __name__ == "__main__":
    unittest.main()
