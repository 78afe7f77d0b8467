"""What a layout says, as lists and small trees, each rule with its place in the text."""

from typing import Dict, List, NamedTuple, Optional, Tuple, Union


class Test(NamedTuple):
    """A test in a condition, as `T1 c`."""

    name: str
    word: str
    at: int
    end: int


class Bit(NamedTuple):
    """A bit of a report in a condition, as `3 h`."""

    number: int
    word: str
    at: int
    end: int


class Group(NamedTuple):
    """Alternatives in parentheses, each of them a condition."""

    alternatives: List["Condition"]
    at: int
    end: int


Item = Union[Test, Bit, Group]
Condition = List[Item]


class Command(NamedTuple):
    """A command, as `R1 s`."""

    name: str
    word: str
    at: int
    end: int


class Choice(NamedTuple):
    """`if guard then then_body else else_body end`; without an `else` the last is none."""

    guard: Condition
    then_body: "Body"
    else_body: Optional["Body"]
    at: int
    end: int


Body = List[Union[Command, Choice]]


class Points(NamedTuple):
    """Points and the tracks that they lie over."""

    name: str
    tracks: List[str]


class Route(NamedTuple):
    """A route, its signal, and its sub-routes in their order."""

    name: str
    signal: str
    subs: List[str]


class SubRoute(NamedTuple):
    """A way over one track, and the lies of points that it needs, as `('P1', 'cr')`."""

    name: str
    track: str
    lies: List[Tuple[str, str]]


class Module(NamedTuple):
    """A trackside module, its kind, and which identity is at which pin."""

    address: int
    kind: str
    pins: List[Tuple[str, int]]


class Request(NamedTuple):
    """A panel request and its body."""

    name: str
    body: Body
    at: int
    end: int


class Free(NamedTuple):
    """The condition under which points are free to go to a lie."""

    points: str
    lie: str
    condition: Condition
    at: int
    end: int


class Statement(NamedTuple):
    """Commands that act by themselves where the condition holds."""

    commands: List[Command]
    condition: Condition
    at: int
    end: int


class OutputBit(NamedTuple):
    """A bit that goes out to a module, and the condition under which it is 1."""

    number: int
    condition: Condition
    at: int
    end: int


class Output(NamedTuple):
    """The bits that go out to a module."""

    address: int
    bits: List[OutputBit]


class Input(NamedTuple):
    """What a report of a module does."""

    address: int
    body: Body
    at: int
    end: int


class Layout:
    """The twelve files of a layout, each as the list of its entries."""

    def __init__(self):
        self.points: List[Points] = []
        self.signals: List[str] = []
        self.tracks: List[str] = []
        self.routes: List[Route] = []
        self.subs: List[SubRoute] = []
        self.flags: List[str] = []
        self.modules: List[Module] = []
        self.requests: List[Request] = []
        self.free: List[Free] = []
        self.statements: List[Statement] = []
        self.outputs: List[Output] = []
        self.inputs: List[Input] = []

    def names(self):
        """All names of identities by the letter of their kind, each list in the order of the entries."""
        return {
            "P": [points.name for points in self.points],
            "S": list(self.signals),
            "T": list(self.tracks),
            "R": [route.name for route in self.routes],
            "U": [sub.name for sub in self.subs],
            "L": list(self.flags),
            "Q": [request.name for request in self.requests],
        }

    def tables(self):
        """Look-ups by name and address, made once for those who ask often."""
        return Tables(self)

    def statements_of(self, slot):
        """The statements that have their turn in a slot: the same number for each slot until none is left."""
        share = (len(self.statements) + 63) // 64
        return self.statements[slot * share : (slot + 1) * share]


class Tables:
    """Look-ups into a layout."""

    def __init__(self, layout):
        self.subs: Dict[str, SubRoute] = {sub.name: sub for sub in layout.subs}
        self.points: Dict[str, Points] = {points.name: points for points in layout.points}
        self.requests: Dict[str, Request] = {request.name: request for request in layout.requests}
        self.modules: Dict[int, Module] = {module.address: module for module in layout.modules}
        self.outputs: Dict[int, Output] = {output.address: output for output in layout.outputs}
        self.inputs: Dict[int, Input] = {entry.address: entry for entry in layout.inputs}
        self.free: Dict[Tuple[str, str], Free] = {(free.points, free.lie): free for free in layout.free}


def commands_of(body):
    """All commands of a body in written order, whatever choice they stand in."""
    for part in body:
        if isinstance(part, Command):
            yield part
        else:
            yield from commands_of(part.then_body)
            yield from commands_of(part.else_body or [])
