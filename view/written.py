"""Conditions and commands written out again, in one line and without comments."""

from .layout import Bit, Choice, Test

LONGEST = 2_000


def condition(items):
    """A condition as it is spelled."""
    return ", ".join(item(one) for one in items)


def item(one):
    """An item as it is spelled."""
    if isinstance(one, Test):
        return f"{one.name} {one.word}"
    if isinstance(one, Bit):
        return f"{one.number} {one.word}"
    return f"({' or '.join(condition(alternative) for alternative in one.alternatives)})"


def command(one):
    """A command as it is spelled."""
    return f"{one.name} {one.word}"


def path(guards):
    """The guards on the way to a command: those that have to hold, and those that have to fail."""
    if not guards:
        return "always"
    return ", ".join(condition(guard) if held else f"not ({condition(guard)})" for guard, held in guards)


def short(text):
    """A piece of the language as it is shown: cut off where it is very long."""
    if len(text) <= LONGEST:
        return text
    return f"{text[:LONGEST]} … and {len(text) - LONGEST:,} characters more"


class Commanders:
    """Who commands what, and under which guards: found in one walk through the whole layout."""

    def __init__(self, layout):
        self._of = {}
        for request in layout.requests:
            self._walk(request.name, request.body, ())
        for number, statement in enumerate(layout.statements):
            for one in statement.commands:
                self._add(f"statement {number}", one, ((statement.condition, True),))
        for entry in layout.inputs:
            self._walk(f"report of {entry.address}", entry.body, ())

    def _walk(self, who, body, guards):
        """Goes through a body, which stands behind these guards: pairs of a condition and whether it has to hold."""
        for part in body:
            if isinstance(part, Choice):
                self._walk(who, part.then_body, (*guards, (part.guard, True)))
                self._walk(who, part.else_body or [], (*guards, (part.guard, False)))
            else:
                self._add(who, part, guards)

    def _add(self, who, one, guards):
        known = self._of.setdefault((one.name, one.word), [])
        if not known or known[-1] != (who, guards):
            known.append((who, guards))

    def of(self, name, word):
        """Who commands `name word`, and what has to hold for it."""
        return [(who, short(path(guards))) for who, guards in self._of.get((name, word), [])]
