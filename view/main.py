"""The words of `./look`, and what each asks for."""

import argparse
import itertools
import os
import sys

from . import dump, expect, faults, page, program, reader
from .story import Story
from .trace import Trace

UNREADABLE = 3
UNWRITABLE = 4


def words():
    """The words that `./look` knows."""
    parser = argparse.ArgumentParser(
        prog="look", description="Shows what ssi says of a layout and its script, on one page.", allow_abbrev=False
    )
    parser.add_argument("file", metavar="FILE", help="the text of a layout and its script; - for standard input")
    parser.add_argument("-o", dest="to", metavar="FILE", help="where to write; without it FILE.html or FILE.vcd here")
    how = parser.add_mutually_exclusive_group()
    how.add_argument("--faults", action="store_true", help="print the faults in their text")
    how.add_argument("--expect", action="store_true", help="print the expectations of the script that don't hold")
    how.add_argument("--vcd", action="store_true", help="write a value change dump of the run")
    return parser


def main(arguments=None):
    """What the words ask for; the status with which `./look` ends."""
    asked = words().parse_args(arguments)
    try:
        text = read(asked.file)
    except OSError as refused:
        print(f"look: {refused}", file=sys.stderr)
        return UNREADABLE
    try:
        with program.Progress() as progress:
            return answer(asked, text, progress)
    except BrokenPipeError:
        os.dup2(os.open(os.devnull, os.O_WRONLY), sys.stdout.fileno())
        return UNWRITABLE
    except OSError as refused:
        print(f"look: {refused}", file=sys.stderr)
        return UNWRITABLE


def answer(asked, text, progress):
    """The answer to the words."""
    if asked.faults:
        return print_faults(asked, text, progress)
    if asked.expect:
        return expect.answer(name_of(asked.file), text, progress)
    if asked.vcd:
        return write_dump(asked, text, progress)
    return write_page(asked, text, progress)


def read(name):
    """The bytes of a file, or of standard input."""
    if name == "-":
        return sys.stdin.buffer.read()
    with open(name, "rb") as file:
        return file.read()


def name_of(file):
    """The file as it is named to the reader."""
    return "standard input" if file == "-" else file


def target(asked, ending):
    """Where to write: the file that was asked for, or one of the text's name in this folder."""
    if asked.to:
        return asked.to
    stem = "look" if asked.file == "-" else os.path.splitext(os.path.basename(asked.file))[0]
    return stem + ending


def write(path, written):
    """Writes a file, and says where."""
    with open(path, "w", encoding="utf-8") as file:
        file.write(written)
    print(path)


def print_faults(asked, text, progress):
    """`--faults`: the faults in their text."""
    run = program.Program(["run"], text)
    trace = Trace(run, progress)
    list(trace)
    progress.what = "the faults are looked up"
    spelled = text.decode("latin-1")
    told = faults.told(trace.faults, spelled)
    sys.stdout.reconfigure(errors="replace")
    for line in faults.printed(told, spelled, name_of(asked.file)):
        print(line)
    return run.status


def write_page(asked, text, progress):
    """The page of a run. Where `ssi` couldn't read, write or be built there is nothing to show."""
    shown = show(name_of(asked.file), text, progress)
    progress.what = "the page is written"
    if shown.status in page.ENDINGS:
        write(target(asked, ".html"), page.page_of(shown))
    else:
        print(f"look: ssi ended with status {shown.status}, so there is no page", file=sys.stderr)
    return shown.status


def show(name, text, progress, ssi=None):
    """All that the page shows of a text."""
    spelled = text.decode("latin-1")
    run = program.Program(["run"], text, ssi)
    lines = iter(run)
    first = next(lines, None)
    trace = Trace(itertools.chain([] if first is None else [first], lines), progress)
    if run.status not in (None, 0) or (first and is_of_layout(first)):
        list(trace)
        progress.what = "the faults are looked up"
        return page.Shown(name, spelled, run.status, faults.told(trace.faults, spelled), None, None, None)
    progress.what = "the layout is read"
    source = reader.read(spelled)
    story = Story(source.layout).go(trace)
    progress.what = "ssi checks"
    check = program.check_lines(text[: source.script_at], ssi)
    return page.Shown(name, spelled, run.status, faults.told(story.faults, spelled), source, story, check)


def is_of_layout(line):
    """Whether the first line of a run says that the layout can't be run."""
    fields = line.split(b" ")
    return fields[0] == b"fault" and not fields[2].startswith(b"R")


def write_dump(asked, text, progress):
    """`--vcd`: a value change dump."""
    run = program.Program(["run"], text)
    source = reader.read(text.decode("latin-1"))
    trace = Trace(run, progress)
    written = "".join(dump.dump_of(source.layout, trace))
    if run.status not in (0, 7) or trace.cycles == 0:
        for fault in trace.faults:
            print(f"look: {fault.text}", file=sys.stderr)
    if run.status in (0, 7):
        write(target(asked, ".vcd"), written)
    return run.status
