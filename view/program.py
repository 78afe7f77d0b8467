"""`ssi` run on a text, and how far the work is."""

import os
import subprocess
import sys
import tempfile
import threading
import time

HERE = os.path.dirname(os.path.dirname(os.path.abspath(__file__)))
PROGRAM = os.path.join(HERE, "ssi")
USAGE_STATUS = 2
BROKEN_STATUS = 5


class Progress:
    """Says on standard error once a second what is being done, and nothing in the first second."""

    def __init__(self, what="ssi runs", stream=None):
        self.what = what
        self._stream = stream or sys.stderr
        self._begun = time.monotonic()
        self._over = threading.Event()

    def __enter__(self):
        threading.Thread(target=self._say, daemon=True).start()
        return self

    def __exit__(self, *_):
        self._over.set()

    def _say(self):
        while not self._over.wait(1):
            print(f"look: {time.monotonic() - self._begun:.0f} s: {self.what}", file=self._stream, flush=True)


class Program:
    """One run of `ssi`: its lines as they come, and its status behind the last."""

    def __init__(self, words, text, program=None):
        self._input = tempfile.TemporaryFile()
        self._input.write(text)
        self._input.seek(0)
        self.status = None
        self._process = subprocess.Popen(
            [program or PROGRAM, *words], stdin=self._input, stdout=subprocess.PIPE
        )

    def __iter__(self):
        """The lines of standard output, each with its end."""
        with self._process.stdout as lines:
            yield from lines
        self.status = self._process.wait()
        self._input.close()


def check_lines(text, program=None):
    """The lines of `ssi check` on the text of a layout; none where the program has no such command yet."""
    run = Program(["check"], text, program)
    lines = [line.decode("latin-1").rstrip("\n") for line in run]
    return lines if run.status in (0, BROKEN_STATUS) else None
