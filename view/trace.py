"""The lines that `ssi run` writes, read one by one."""

from typing import List, NamedTuple, Optional, Tuple

from .words import fact_of

SLOTS = 64


class Cycle(NamedTuple):
    """The line of a minor cycle, its telegrams as they are written, or none."""

    number: int
    sent: Optional[str]
    arrived: Optional[str]
    taken: Optional[Tuple[str, str]]
    changes: List[Tuple[str, str]]
    line: str

    @property
    def slot(self):
        """The slot, which is the address of the module that is spoken to."""
        return self.number % SLOTS

    def commanded(self):
        """The byte of the command that went out."""
        return int(self.sent[2:4], 16)

    def reported(self):
        """The byte of the report; none where nothing arrived or no report of this address."""
        return report_byte(self.arrived, self.slot)


class Full(NamedTuple):
    """A put that found no room, before the minor cycle of this number."""

    number: int
    panel: str
    request: str
    line: str


class Fault(NamedTuple):
    """The line of a fault: its place, its code, and what has it. The line of a large input has no place."""

    line: Optional[int]
    column: Optional[int]
    code: str
    token: str
    text: str


def report_byte(arrived, address):
    """The byte of four bytes that are the report of this address; none where they are anything else."""
    if arrived is None:
        return None
    first, byte, third, fourth = bytes.fromhex(arrived)
    return byte if (first, third, fourth) == (64 + address, 255 - byte, 191 - address) else None


def read_fault(line):
    """A line that begins with `fault`."""
    fields = line.split(" ", 3)
    if fields[1] == "input":
        return Fault(None, None, "", "", line)
    row, column = fields[1].split(":")
    return Fault(int(row), int(column), fields[2], fields[3] if len(fields) > 3 else "", line)


def read_cycle(line):
    """The line of a minor cycle."""
    number, sent, arrived, taken, *changes = line.split(" ")
    panel, _, request = taken.partition(":")
    return Cycle(
        int(number),
        None if sent == "-" else sent,
        None if arrived == "-" else arrived,
        None if taken == "-" else (panel, request),
        [tuple(change.split(":")) for change in changes],
        line,
    )


class Trace:
    """The lines of a run, from first to last. Idle minor cycles are counted and passed over."""

    def __init__(self, lines, progress=None):
        self._lines = lines
        self._progress = progress
        self.cycles = 0
        self.faults = []

    def __iter__(self):
        """Each minor cycle in which something goes out, arrives, is taken or changes, and each full put."""
        for line in self._lines:
            if line.endswith(b" - - -\n"):
                self.cycles += 1
            else:
                told = self._told(line.decode("latin-1").rstrip("\n"))
                if told:
                    yield told
            if self._progress and self.cycles and not self.cycles & 0xFFF:
                self._progress.what = f"{self.cycles:,} minor cycles are read"

    def _told(self, line):
        """What a line that isn't idle tells; none for a fault, which is kept."""
        if line.startswith("fault "):
            self.faults.append(read_fault(line))
            return None
        if line.startswith("full "):
            _, panel, request = line.split(" ")
            return Full(self.cycles, panel, request, line)
        self.cycles += 1
        return read_cycle(line)


def apply(changes, state):
    """Makes a state what it is after these changes."""
    for name, word in changes:
        fact, value = fact_of(name, word)
        if value:
            state.add(fact)
        else:
            state.discard(fact)
