"""Faults in their text: the line, the place marked, what the code means and what to do about it.

The meaning of a code and the advice stand in docs/FAULTS.md and nowhere else: they are taken from there. What
may stand at a place, what might have been meant and what is found behind the first place that isn't spelled
is this page's own guess.
"""

import difflib
import os
import re
from typing import Dict, List, NamedTuple, Optional

from . import reader, tokens
from .program import HERE
from .trace import Fault
from .words import KINDS

PAGE = os.path.join(HERE, "docs", "FAULTS.md")
NAMES_GUESSED = 50
MOST_WANTED = 8
WIDEST = 160


class Advice(NamedTuple):
    """What a code means, and what to do about it, in the words of docs/FAULTS.md."""

    means: str
    to_do: List[str]


class Told(NamedTuple):
    """A fault as it is shown. `guess` says that `ssi` didn't tell it; the notes are this page's own."""

    line: Optional[int]
    column: Optional[int]
    code: str
    token: str
    text: str
    guess: bool
    notes: List[str]


def read_advice(page=PAGE) -> Dict[str, Advice]:
    """The advice of each code, from the page that tells all codes."""
    with open(page, encoding="utf-8") as file:
        text = file.read()
    means = dict(re.findall(r"^\| \[([A-Z]\d+)\]\(#\w+\) \| (.*) \|$", text, re.MULTILINE))
    sections = re.split(r"^### ", text, flags=re.MULTILINE)[1:]
    to_do = {
        section.split("\n", 1)[0]: re.findall(r"^\*\*What to do:\*\* (.*)$", section, re.MULTILINE)
        for section in sections
    }
    return {code: Advice(meaning, to_do.get(code, [])) for code, meaning in means.items()}


def plain(markdown):
    """A sentence of docs/ without its links."""
    return re.sub(r"\[([^]]*)\]\([^)]*\)", r"\1", markdown)


def told(faults: List[Fault], text):
    """The faults that `ssi` told, with notes of this page, and behind a fault of spelling its guesses."""
    if not faults:
        return []
    source = reader.read(text, on=True)
    lines = tokens.Lines(text)
    slips = [(*lines.place(slip.token.at), slip) for slip in source.slips]
    names = source.layout.names()
    shown = []
    for number, fault in enumerate(faults):
        notes = []
        if number < NAMES_GUESSED:
            notes = notes_of(fault, slips, names)
        shown.append(Told(fault.line, fault.column, fault.code, fault.token, fault.text, False, notes))
    if is_spelling(faults[-1]) and agrees(faults[-1], slips):
        shown += [guess_of(*slip) for slip in slips[1:]]
    return shown


def is_spelling(fault):
    """Whether the fault is one of spelling, behind which nothing is read by `ssi`."""
    return fault.code[:1] in ("L", "S") and fault.line is not None or fault.code == "R1"


def agrees(fault, slips):
    """Whether the first slip found here is the fault that `ssi` told."""
    return bool(slips) and (fault.line, fault.column, fault.code) == (slips[0][0], slips[0][1], slips[0][2].code)


def guess_of(line, column, slip):
    """A slip behind the first, which only a guess can find."""
    return Told(line, column, slip.code, "", "", True, [stands(slip)])


def notes_of(fault, slips, names):
    """What this page adds to a fault: what may stand there, or a name that might have been meant."""
    if is_spelling(fault):
        return [stands(slips[0][2])] if agrees(fault, slips) else []
    if fault.code in ("N1", "R2") and fault.token[:1] in KINDS:
        return meant(fault.token, names[fault.token[0]])
    return []


def stands(slip):
    """What stands at a slip, and what may stand there."""
    here = "the text ends here" if slip.token.kind == "end" else f"`{tokens.shown(slip.token.text[:40])}` stands here"
    if slip.code == "S2":
        return f"{here}, and opens a ninth level"
    wanted = slip.wanted
    if not wanted:
        return here
    if len(wanted) > MOST_WANTED:
        wanted = wanted[:MOST_WANTED] + ["more"]
    may = wanted[0] if len(wanted) == 1 else f"{', '.join(wanted[:-1])} or {wanted[-1]}"
    return f"{here}; {may} may stand here"


def meant(name, declared):
    """Names that are much like this one."""
    near = difflib.get_close_matches(name, declared, n=2, cutoff=0.7)
    return [f"{' or '.join(near)} may be meant"] if near else []


def excerpt(line, column):
    """A line and a column in it; of a long line a piece around the column."""
    if len(line) <= WIDEST:
        return line, column
    begin = max(column - 1 - WIDEST // 2, 0)
    before = "... " if begin else ""
    behind = " ..." if begin + WIDEST < len(line) else ""
    return before + line[begin : begin + WIDEST] + behind, column - begin + len(before)


def marked(line, column, lines):
    """A line of the text and a line with a mark below its column, as they are shown."""
    text, column = excerpt(lines.line(line).rstrip("\r"), column)
    before = tokens.shown(text[: column - 1])
    return tokens.shown(text), "".join("\t" if character == "\t" else " " for character in before) + "^"


def printed(shown: List[Told], text, path):
    """The faults for a terminal and for editors, line by line."""
    lines = tokens.Lines(text)
    advice = read_advice()
    advised = set()
    for fault in shown:
        if fault.line is None:
            yield f"{path}: {fault.text[len('fault '):]}"
            continue
        means = plain(advice[fault.code].means)
        code = f"{fault.code} {fault.token}" if fault.token else fault.code
        yield f"{path}:{fault.line}:{fault.column}: {'guess ' if fault.guess else ''}{code}: {means}"
        for row in marked(fault.line, fault.column, lines):
            yield f"    {row}"
        yield from (f"    look: {note}" for note in fault.notes)
        if fault.code not in advised and not fault.guess:
            advised.add(fault.code)
            yield from (f"    what to do: {plain(row)}" for row in advice[fault.code].to_do)
