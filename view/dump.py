"""A run as a value change dump, which waveform viewers open: one time step a minor cycle.

The values at time I are those after minor cycle I. Facts are wires by the name of their identity, points have
one for each of theirs; a request is a wire that is 1 in the minor cycle that takes it; a module has the byte
of its last command and of its last report, which is `x` where nothing arrived or no report of its address.
"""

from . import values
from .trace import Full
from .words import ASPECTS, Fact, fact_of

SCOPES = {"T": "tracks", "S": "signals", "P": "points", "R": "routes", "U": "sub_routes", "L": "flags"}
_DIGITS = "".join(chr(code) for code in range(33, 127))


def mark_of(number):
    """The short mark of a variable: its number in the printable characters."""
    mark = ""
    while True:
        mark += _DIGITS[number % len(_DIGITS)]
        number //= len(_DIGITS)
        if not number:
            return mark


class Variables:
    """The variables of the dump: their declarations by scope, and the mark of each."""

    def __init__(self, layout):
        self.marks = {}
        self.scopes = []
        names = layout.names()
        for kind, scope in SCOPES.items():
            facts = [(Fact(name, aspect.name), wire(kind, name, aspect)) for name in names[kind] for aspect in ASPECTS[kind]]
            self._scope(scope, [(key, name, 1) for key, name in facts])
        self._scope("requests", [(("taken", name), name, 1) for name in names["Q"]])
        addresses = [module.address for module in layout.modules]
        self._scope("commands", [(("command", address), f"command_{address}", 8) for address in addresses])
        self._scope("reports", [(("report", address), f"report_{address}", 8) for address in addresses])

    def _scope(self, scope, variables):
        for key, _, _ in variables:
            self.marks[key] = mark_of(len(self.marks))
        self.scopes.append((scope, variables))

    def declared(self):
        """The head of the dump."""
        yield "$comment one time step is a minor cycle $end\n$timescale 1 ms $end\n$scope module ssi $end\n"
        for scope, variables in self.scopes:
            if variables:
                yield f"$scope module {scope} $end\n"
                for key, name, width in variables:
                    vector = f" [{width - 1}:0]" if width > 1 else ""
                    yield f"$var wire {width} {self.marks[key]} {name}{vector} $end\n"
                yield "$upscope $end\n"
        yield "$upscope $end\n$enddefinitions $end\n"


def wire(kind, name, aspect):
    """The name of a fact's wire: that of its identity, with the aspect where the kind has several."""
    return name if len(ASPECTS[kind]) == 1 else f"{name}_{aspect.name.replace(' ', '_')}"


class Dump:
    """The values as they stand, and the time told last."""

    def __init__(self, layout):
        self.variables = Variables(layout)
        self.start = values.start_of(layout)
        self.bytes = {}
        self.taken = None
        self.time = 0

    def first(self):
        """All values, at the first time."""
        yield "$dumpvars\n"
        for _, variables in self.variables.scopes:
            for key, _, width in variables:
                yield f"bx {self.variables.marks[key]}\n" if width > 1 else self.bit(key, key in self.start)
        yield "$end\n"

    def bit(self, key, value):
        """The line of a wire."""
        return f"{1 if value else 0}{self.variables.marks[key]}\n"

    def byte(self, key, value):
        """The line of a byte, where it isn't as before."""
        if self.bytes.get(key) == value:
            return ""
        self.bytes[key] = value
        digits = "x" if value is None else f"{value:08b}"
        return f"b{digits} {self.variables.marks[key]}\n"

    def at(self, number):
        """The line of a time, where it isn't told already."""
        if number == self.time:
            return ""
        self.time = number
        return f"#{number}\n"

    def end_taken(self):
        """The lines that end a request: in the minor cycle behind the one that took it, it is taken no more."""
        if self.taken is None:
            return ""
        cycle, request = self.taken
        self.taken = None
        return self.at(cycle + 1) + self.bit(("taken", request), False)

    def lines(self, cycle):
        """What a minor cycle changes."""
        told = ""
        if cycle.sent is not None:
            told += self.byte(("command", cycle.slot), cycle.commanded())
            told += self.byte(("report", cycle.slot), cycle.reported())
        for name, word in cycle.changes:
            fact, value = fact_of(name, word)
            told += self.bit(fact, value)
        if cycle.taken:
            self.taken = cycle.number, cycle.taken[1]
            told += self.bit(("taken", cycle.taken[1]), True)
        return self.at(cycle.number) + told if told else ""


def dump_of(layout, trace):
    """The dump of a run, piece by piece."""
    dump = Dump(layout)
    yield from dump.variables.declared()
    yield "#0\n"
    yield from dump.first()
    for told in trace:
        if not isinstance(told, Full):
            yield dump.end_taken() + dump.lines(told)
    yield dump.end_taken()
    yield dump.at(trace.cycles)
