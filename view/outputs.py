"""The bits that go out to modules, by the names that the layout gives them.

A bit to a module of signals is that of the signal at the pin of its number, and tells it to show proceed or
stop; two bits to a module of points drive the machine at a pin to normal and to reverse. Any other bit has its
number alone.
"""

from typing import NamedTuple, Optional

DRIVES = ("none", "normal", "reverse", "both")
LEVELS = ("l", "h")


class Named(NamedTuple):
    """An output: its name, and the words of its values by the number that its bits make."""

    name: str
    address: int
    low_bit: int
    width: int
    words: tuple

    def word(self, byte):
        """The word that a byte of a command says of it."""
        return self.words[byte >> self.low_bit & (1 << self.width) - 1]

    def expected(self, word):
        """How an expectation names it: `S1:proceed`, `P1:drive-normal`, `5.2:h`."""
        return f"{self.name}:drive-{word}" if self.width == 2 else f"{self.name}:{word}"


def of_module(module, output):
    """The outputs of a module, by the bits that have a condition."""
    at_pin = {pin: name for name, pin in module.pins}
    found = []
    for number in sorted({bit.number for bit in output.bits}):
        found_here = named(module, at_pin, number)
        if found_here not in found:
            found.append(found_here)
    return found


def named(module, at_pin, number):
    """The output that a bit belongs to."""
    if module.kind == "signal" and number in at_pin:
        return Named(at_pin[number], module.address, number, 1, ("stop", "proceed"))
    if module.kind == "points" and number // 2 in at_pin:
        return Named(at_pin[number // 2], module.address, number // 2 * 2, 2, DRIVES)
    return Named(f"{module.address}.{number}", module.address, number, 1, LEVELS)


def bit_says(module, number) -> Optional[str]:
    """What a bit that goes out as 1 says, in words."""
    at_pin = {pin: name for name, pin in module.pins}
    output = named(module, at_pin, number)
    if output.width == 2:
        return f"drives {output.name} to {DRIVES[1 + number % 2]}"
    if output.words[1] == "proceed":
        return f"tells {output.name} to show proceed"
    return None


def of_layout(layout):
    """All outputs of a layout, in the order of the addresses."""
    tables = layout.tables()
    return [
        output
        for address in sorted(tables.outputs)
        if address in tables.modules
        for output in of_module(tables.modules[address], tables.outputs[address])
    ]
