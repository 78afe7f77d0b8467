"""The page: one file of HTML with its style, its script and its data inside."""

import os
from typing import List, NamedTuple, Optional

from . import checks, faults, outputs, tables, tokens
from .markup import Markup, code, data, element, joined, safe, sentence
from .reader import Source
from .story import Asked, Story
from .values import Guarded
from .words import ASPECTS, LIES

FOLDER = os.path.join(os.path.dirname(os.path.abspath(__file__)), "page")
SCRIPTS = ("run.js", "patterns.js", "chart.js", "panel.js", "lists.js", "main.js")
FAULTS_SHOWN = 500
MOST_REASONS = 40

ENDINGS = {
    0: "the layout and its script have no fault",
    1: "the layout has faults, so it wasn't run",
    7: "the script has a fault: the steps before it were done",
    8: "memory ran out",
    9: "the input is too large",
}


class Shown(NamedTuple):
    """What is to be shown: the text, how `ssi` ended, its faults, and the run and the check where there are any."""

    name: str
    text: str
    status: int
    faults: List[faults.Told]
    source: Optional[Source]
    story: Optional[Story]
    check: Optional[List[str]]


def page_of(shown):
    """The whole page."""
    parts = {
        "title": safe(shown.name),
        "style": Markup(read("style.css")),
        "name": safe(shown.name),
        "summary": summary(shown),
        "faults": fault_section(shown),
        "tables": tables.control_tables(shown.source.layout) if shown.story else safe(""),
        "check": check_section(shown),
        "data": data(run_data(shown.story) if shown.story else None),
        "script": Markup("\n".join(read(name) for name in SCRIPTS)),
    }
    rest = read("page.html")
    written = []
    for name, part in parts.items():
        before, rest = rest.split("{{" + name + "}}")
        written += [before, part]
    return "".join(written) + rest


def read(name):
    """A file of the page."""
    with open(os.path.join(FOLDER, name), encoding="utf-8") as file:
        return file.read()


def summary(shown):
    """How the run ended, and how much of it is shown."""
    ending = ENDINGS.get(shown.status, "see README.md")
    parts = [element("p", f"ssi run ended with status {shown.status}: {ending}.")]
    story = shown.story
    if story is not None:
        parts.append(element("p", f"{story.cycles:,} minor cycles; {len(story.kept):,} lines tell something new."))
    if story is not None and story.left_out:
        parts.append(
            element(
                "p",
                f"The page shows {story.shown:,} of {story.cycles:,} minor cycles: it stops after {story.changes:,} "
                f"changes. {story.left_out:,} lines behind them change something too and aren't shown.",
                class_="warning",
            )
        )
    return joined(parts)


def fault_section(shown):
    """The faults, each with its line, what it means and what to do."""
    if not shown.faults:
        return safe("")
    advice = faults.read_advice()
    lines = tokens.Lines(shown.text)
    items = [fault_item(fault, lines, advice) for fault in shown.faults[:FAULTS_SHOWN]]
    more = len(shown.faults) - len(items)
    rest = [element("p", f"{more:,} more aren't shown here; ./ssi run tells all.")] if more > 0 else []
    return element("section", element("h2", "Faults"), *items, *rest, id="faults")


def fault_item(fault, lines, advice):
    """One fault."""
    if fault.line is None:
        return element("article", element("p", code(fault.text)), class_="fault")
    head = f"{fault.line}:{fault.column} {fault.code} {fault.token}".rstrip()
    inside = [element("h3", "Guess: " if fault.guess else "", code(head), class_="own" if fault.guess else None)]
    inside.append(element("p", sentence(advice[fault.code].means), class_="means"))
    inside.append(element("pre", marked_line(fault, lines)))
    if fault.notes:
        inside.append(element("ul", *(element("li", sentence(note)) for note in fault.notes), class_="own"))
    if not fault.guess:
        inside += [element("p", "What to do: ", sentence(advised)) for advised in advice[fault.code].to_do]
    return element("article", *inside, class_="fault")


def marked_line(fault, lines):
    """The line of a fault with its place marked: the token that has it, or one character."""
    line, column = faults.excerpt(lines.line(fault.line).rstrip("\r"), fault.column)
    at = column - 1
    length = max(len(fault.token), 1)
    here = line[at : at + length] or " "
    return joined(
        [
            element("span", fault.line, class_="number"),
            tokens.shown(line[:at]),
            element("mark", tokens.shown(here), class_="place"),
            tokens.shown(line[at + length :]),
        ]
    )


def check_section(shown):
    """The answer of `ssi check`, where the program has it."""
    if shown.check is None:
        return safe("")
    body = checks.section(shown.check, shown.source.layout, shown.text)
    return element("section", element("h2", "The check"), body, id="check")


def run_data(story):
    """What the page's script is given: the layout's names, the lines that change something, and what requests did."""
    layout = story.layout
    subs = {sub.name: sub for sub in layout.subs}
    return {
        "shown": story.shown,
        "cycles": story.cycles,
        "aspects": {kind: [list(aspect) for aspect in aspects] for kind, aspects in ASPECTS.items()},
        "names": layout.names(),
        "modules": [[module.address, module.kind, module.pins] for module in layout.modules],
        "outputs": [output_data(output) for output in outputs.of_layout(layout)],
        "routes": [
            {
                "name": route.name,
                "signal": route.signal,
                "cells": [[name, subs[name].track, [[p, LIES[lie]] for p, lie in subs[name].lies]] for name in route.subs],
            }
            for route in layout.routes
        ],
        "lines": story.kept,
        "asked": [asked_data(asked) for asked in story.asked],
    }


def output_data(output):
    """An output, with the words in which the page says its values."""
    words = ("low", "high") if output.words == outputs.LEVELS else output.words
    return [output.name, output.address, output.low_bit, output.width, words]


def asked_data(asked: Asked):
    """A request that was taken, as the page lists it: minor cycle, request, refused or not, and what happened."""
    if not asked.agrees:
        return [asked.cycle, asked.panel, asked.request, None, [], []]
    why, did = [], []
    for event in asked.seen:
        if isinstance(event, Guarded):
            if not event.held:
                why.append(few(event.why))
        elif event.changed:
            did.append(f"{event.command.name} {event.command.word}")
    return [asked.cycle, asked.panel, asked.request, asked.refused, few(why), did]


def few(reasons):
    """The first reasons, where there are very many."""
    return reasons if len(reasons) <= MOST_REASONS else reasons[:MOST_REASONS]
