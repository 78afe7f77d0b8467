"""What the tests of `./look` share: where things are, layouts, and how a check that can't run says so."""

import os
import shutil
import subprocess
import sys
import tempfile
import unittest

HERE = os.path.dirname(os.path.dirname(os.path.dirname(os.path.abspath(__file__))))
LOOK = os.path.join(HERE, "look")
BUILT = os.path.join(HERE, "crates", "ssi_run", "out", "ssi_run")
FILES = "PTS SIG TCS RTE SUB FLG TFM PRR PFM FOP OPT IPT".split()

sys.path.insert(0, HERE)


def layout(script="", **files):
    """A text with these entries, and a script behind it."""
    text = "".join(f"file {name}\n{files.get(name, '')}\n" for name in FILES)
    return f"{text}file RUN\n{script}\n"


def example(name):
    """The path of an example."""
    return os.path.join(HERE, "examples", name)


def text_of(path):
    """A file as text with a character for each byte."""
    with open(path, "rb") as file:
        return file.read().decode("latin-1")


def not_run(what, package):
    """Skips a test, and says what it lacks and what to install."""
    print(f"checks: not run: {what}; install {package}", file=sys.stderr)
    raise unittest.SkipTest(f"not run: install {package}")


def find(command, what, package):
    """The path of a command that a check needs."""
    path = shutil.which(command)
    if path is None:
        not_run(what, package)
    return path


class LookCase(unittest.TestCase):
    """A test that runs `./look` in a folder of its own."""

    @classmethod
    def setUpClass(cls):
        if not os.access(BUILT, os.X_OK):
            not_run(cls.__name__, "the kit, and build the program by ./ssi")
        cls.folder = tempfile.mkdtemp()
        cls.addClassCleanup(shutil.rmtree, cls.folder)

    def look(self, *words, text=None, status=0):
        """What `./look` prints, with the text as standard input."""
        data = None if text is None else text.encode("latin-1")
        run = subprocess.run([LOOK, *words], input=data, stdout=subprocess.PIPE, stderr=subprocess.PIPE, cwd=self.folder)
        self.assertEqual(run.returncode, status, run.stderr.decode())
        return run.stdout.decode()

    def page(self, text, status=0):
        """The page of a text."""
        self.look("-", "-o", "page.html", text=text, status=status)
        with open(os.path.join(self.folder, "page.html"), encoding="utf-8") as file:
            return file.read()

    def assertShows(self, page, text):
        """The page has the text. Where it hasn't, the page itself isn't printed, which would be long."""
        self.assertTrue(text in page, f"the page doesn't show: {text}")
