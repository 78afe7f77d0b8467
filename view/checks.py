"""The answer of `ssi check`: each broken rule in its own text, with the values of the state that is shown."""

from typing import List, NamedTuple

from . import tokens, values
from .layout import Bit, Choice, Group, Test, commands_of
from .markup import code, element, joined
from .words import fact_of

BREACHES = {
    "locked": "The command moves points while a sub-route that needs them is locked.",
    "occupied": "The command moves points while a track under them is occupied.",
    "conflict": "After the command two different sub-routes on one track are locked.",
    "lie": "After the command a sub-route is locked whose points aren't controlled to its lie.",
}


class Broken(NamedTuple):
    """A line `broken`: the block, the number of its command, the breach, and the true facts of the state."""

    block: str
    command: int
    breach: str
    facts: List[str]


class Block(NamedTuple):
    """A rule as a body, with its place in the text."""

    body: list
    at: int
    end: int


def block_of(layout, name):
    """The rule that a line names: a request, `fop/` and a statement's number, or `ipt/` and an address."""
    tables = layout.tables()
    if name.startswith("fop/"):
        statement = layout.statements[int(name[4:])]
        choice = Choice(statement.condition, statement.commands, None, statement.at, statement.end)
        return Block([choice], statement.at, statement.end)
    entry = tables.inputs[int(name[4:])] if name.startswith("ipt/") else tables.requests[name]
    return Block(entry.body, entry.at, entry.end)


class Marks:
    """A walk through a rule up to the command that makes the breach, with a mark for each test on the way."""

    def __init__(self, layout, block, number, state):
        self._scene = values.Scene(layout.tables(), state)
        self._wanted = list(commands_of(block.body))[number]
        self.marks = [(self._wanted.at, self._wanted.end, "breach", "this command makes the breach")]
        self.before = set()
        self._walk(block.body)

    def _walk(self, body):
        """Goes through a body; true where the command was reached."""
        for part in body:
            if part is self._wanted:
                self.before = set(self._scene.state)
                values.act(part, self._scene.state)
                return True
            if not isinstance(part, Choice):
                values.act(part, self._scene.state)
                self.marks.append((part.at, part.end, "done", "this command has acted before"))
                continue
            self._value(part.guard)
            if self._walk(self._branch(part)):
                return True
        return False

    def _branch(self, choice):
        """The branch that is gone: the one with the command, else the one that the guard's value leads to."""
        for branch in (choice.then_body, choice.else_body or []):
            if any(one is self._wanted for one in commands_of(branch)):
                return branch
        held = values.holds(choice.guard, self._scene)
        return choice.then_body if held else choice.else_body or []

    def _value(self, condition):
        """Marks the tests of a condition with their values now."""
        for item in condition:
            if isinstance(item, Group):
                for alternative in item.alternatives:
                    self._value(alternative)
            elif isinstance(item, Bit):
                self.marks.append((item.at, item.end, "open", "a bit of a report, which may be either"))
            elif isinstance(item, Test):
                held = values.item_holds(item, self._scene)
                self.marks.append((item.at, item.end, "held" if held else "failed", "holds" if held else "fails"))

    @property
    def after(self):
        """The state behind the command."""
        return self._scene.state

    @property
    def command(self):
        """The command that makes the breach."""
        return self._wanted


def whose(layout, broken, marks):
    """Between which identities the breach is, one line each."""
    found = []
    for sub in layout.subs:
        locked = fact_of(sub.name, "l")[0]
        needs = [points for points, _ in sub.lies]
        if broken.breach == "locked" and locked in marks.before and marks.command.name in needs:
            found.append(f"{sub.name} is locked and needs {marks.command.name}")
        if broken.breach == "lie" and locked in marks.after:
            found += [
                f"{sub.name} is locked and needs {points} {lie}, and {points} are controlled otherwise"
                for points, lie in sub.lies
                if (fact_of(points, lie)[0] in marks.after) != fact_of(points, lie)[1]
            ]
    if broken.breach == "occupied":
        over = layout.tables().points[marks.command.name].tracks
        found = [
            f"{track} is occupied, and {marks.command.name} lie over it"
            for track in over
            if fact_of(track, "o")[0] in marks.before
        ]
    if broken.breach == "conflict":
        found = conflicts(layout, marks.after)
    return found


def conflicts(layout, state):
    """The pairs of locked sub-routes on one track."""
    by_track = {}
    for sub in layout.subs:
        if fact_of(sub.name, "l")[0] in state:
            by_track.setdefault(sub.track, []).append(sub.name)
    return [f"{' and '.join(subs)} are locked, all on {track}" for track, subs in by_track.items() if len(subs) > 1]


def marked_text(text, block, marks):
    """The text of a rule with its marks."""
    pieces = []
    at = block.at
    for begin, end, kind, title in sorted(marks):
        pieces.append(tokens.shown(text[at:begin]))
        pieces.append(element("mark", tokens.shown(text[begin:end]), class_=kind, title=title))
        at = end
    pieces.append(tokens.shown(text[at : block.end]))
    return joined(pieces)


def section(lines, layout, text):
    """The part of the page that shows the answer."""
    parts = [shown(line, layout, text) for line in lines]
    return joined(parts)


def shown(line, layout, text):
    """One line of the answer."""
    word, *fields = line.split(" ")
    if word == "broken":
        return shown_broken(Broken(fields[0], int(fields[1]), fields[2], fields[3:]), layout, text, line)
    if word == "wide":
        what = f" has {int(fields[1]):,} cases, more than are judged: nothing is known of it."
        return element("p", code(fields[0]), what)
    return element("p", code(line), class_="told")


def shown_broken(broken, layout, text, line):
    """A broken rule in its own text."""
    block = block_of(layout, broken.block)
    state = {fact_of(*fact.split(":"))[0] for fact in broken.facts}
    marks = Marks(layout, block, broken.command, state)
    facts = joined((code(fact) for fact in broken.facts), " ") if broken.facts else "nothing"
    return element(
        "article",
        element("p", code(line), class_="told"),
        element("p", BREACHES[broken.breach]),
        element("pre", marked_text(text, block, marks.marks), class_="own"),
        element("p", "At its begin this is true, and nothing else: ", facts),
        element("ul", *(element("li", one) for one in whose(layout, broken, marks)), class_="own"),
        class_="broken",
    )
