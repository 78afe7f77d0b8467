"""What a run did, gone through once: the lines that change something, and what each request did.

A line is kept where a fact changes, a request is taken or finds no room, or a telegram differs from the last
one of its slot. Every other line can be told from these: it has its number and the telegrams of its slot.
"""

from typing import List, NamedTuple

from . import values
from .layout import Layout
from .trace import Full, Trace, apply

MOST_CHANGES = 50_000


class Asked(NamedTuple):
    """A request that was taken: whether it counts as refused, and what happened, as `values.run` tells it.

    Where the state that came out isn't the one of the trace nothing is told of it.
    """

    cycle: int
    panel: str
    request: str
    refused: bool
    seen: List[values.Event]
    agrees: bool


class Story:
    """A run as far as it is shown."""

    def __init__(self, layout: Layout, most=MOST_CHANGES):
        self.layout = layout
        self.tables = layout.tables()
        self.state = values.start_of(layout)
        self.kept = []
        self.asked = []
        self.changes = 0
        self.cycles = 0
        self.shown = 0
        self.left_out = 0
        self.faults = []
        self._most = most
        self._last = {}

    def go(self, trace: Trace):
        """Goes through a trace to its end."""
        for told in trace:
            if self.left_out or self.changes >= self._most:
                self.left_out += self._weight(told) > 0
                continue
            self._tell(told)
            self.shown = trace.cycles
        self.cycles = trace.cycles
        self.faults = trace.faults
        if not self.left_out:
            self.shown = self.cycles
        return self

    def _weight(self, told):
        """How many things a line changes, with telegrams that differ from the last ones of the slot."""
        if isinstance(told, Full):
            return 1
        weight = len(told.changes) + (told.taken is not None)
        if told.sent is not None:
            weight += self._last.get(told.slot) != (told.sent, told.arrived)
            self._last[told.slot] = told.sent, told.arrived
        return weight

    def _tell(self, told):
        """Keeps a line where it changes something."""
        weight = self._weight(told)
        if not weight:
            return
        self.changes += weight
        self.kept.append(told.line if not isinstance(told, Full) else f"{told.line} {told.number}")
        if isinstance(told, Full):
            return
        if told.taken:
            self.asked.append(asked(self.layout, self.tables, self.state, told))
        apply(told.changes, self.state)


def asked(layout, tables, before, cycle):
    """What the request of a minor cycle did, worked out from the state before the minor cycle."""
    state = set(before)
    module = tables.modules.get(cycle.slot)
    if module is not None:
        take_report(tables, module, cycle.reported(), state)
    for statement in layout.statements_of(cycle.slot):
        if values.holds(statement.condition, values.Scene(tables, state)):
            for command in statement.commands:
                values.act(command, state)
    panel, name = cycle.taken
    seen = values.run(tables.requests[name].body, values.Scene(tables, state))
    after = set(before)
    apply(cycle.changes, after)
    return Asked(cycle.number, panel, name, values.is_refused(seen), seen, state == after)


def take_report(tables, module, report, state):
    """What the report of a module does, or that there is none."""
    if report is None:
        values.restrict(module, state)
    elif module.address in tables.inputs:
        values.run(tables.inputs[module.address].body, values.Scene(tables, state, report))
