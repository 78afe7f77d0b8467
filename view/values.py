"""What conditions are worth in a state, and what bodies do: for one place of a run at a time.

`ssi` does this for every minor cycle, and is proved to. Here it is done once more, for a request that was
taken, so that the page can say which item of a guard failed. Where the state that comes out isn't the one
that `ssi` told, the page says so and explains nothing.

A state is the set of the facts that are true.
"""

from typing import List, NamedTuple, Union

from .layout import Bit, Choice, Command, Condition, Group, Test
from .words import FREE_TESTS, LIES, fact_of, in_full, word_now


class Scene(NamedTuple):
    """What a condition looks at: the look-ups of the layout, the state, and the byte of a report or none."""

    tables: object
    state: set
    report: object = None


class Guarded(NamedTuple):
    """A guard that was valued: its choice, whether it held, and why it didn't."""

    choice: Choice
    held: bool
    why: List[str]


class Acted(NamedTuple):
    """A command that acted: whether it stands in the `else` of its innermost choice, and whether it changed anything."""

    command: Command
    in_else: bool
    changed: bool


Event = Union[Guarded, Acted]


def holds(condition: Condition, scene):
    """Whether a condition holds: all of its items do."""
    return all(item_holds(item, scene) for item in condition)


def item_holds(item, scene):
    """Whether an item holds."""
    if isinstance(item, Test):
        return test_holds(item, scene)
    if isinstance(item, Bit):
        bit = 0 if scene.report is None else scene.report >> item.number & 1
        return bit == (1 if item.word == "h" else 0)
    return any(holds(alternative, scene) for alternative in item.alternatives)


def test_holds(test, scene):
    """Whether a test holds. Controlled or free: the control, or the condition of the points for the lie."""
    if test.word in FREE_TESTS:
        lie = FREE_TESTS[test.word]
        fact, value = fact_of(test.name, lie)
        return (fact in scene.state) == value or holds(scene.tables.free[test.name, lie].condition, scene)
    fact, value = fact_of(test.name, test.word)
    return (fact in scene.state) == value


def first_failing(condition, scene):
    """The first item of a condition that fails; none where it holds."""
    for item in condition:
        if not item_holds(item, scene):
            return item
    return None


def why_not(item, scene):
    """Why an item fails, a line each: the item, and the value that it had."""
    if isinstance(item, Bit):
        return [f"{item.number} {item.word}: bit {item.number} of the report is {'low' if item.word == 'h' else 'high'}"]
    if isinstance(item, Group):
        lines = ["none of the alternatives holds"]
        for alternative in item.alternatives:
            lines += why_not(first_failing(alternative, scene), scene)
        return lines
    if item.word in FREE_TESTS:
        return why_not_free(item, scene)
    fact, _ = fact_of(item.name, item.word)
    return [f"{item.name} {item.word}: {in_full(item.name, word_now(fact, scene.state))}"]


def why_not_free(test, scene):
    """Why points aren't free to a lie."""
    lie = FREE_TESTS[test.word]
    control = "cr" if lie == "cn" else "cn"
    failing = first_failing(scene.tables.free[test.name, lie].condition, scene)
    first = f"{test.name} {test.word}: {in_full(test.name, control)} and not free to go {LIES[lie]}"
    return [first] + [f"under PFM, {line}" for line in why_not(failing, scene)]


def run(body, scene, seen=None, in_else=False):
    """Runs a body on the state of the scene, which it changes. What happens is put into `seen`, in order."""
    seen = [] if seen is None else seen
    for part in body:
        if isinstance(part, Command):
            seen.append(Acted(part, in_else, act(part, scene.state)))
            continue
        failing = first_failing(part.guard, scene)
        why = [] if failing is None else why_not(failing, scene)
        seen.append(Guarded(part, failing is None, why))
        if failing is None:
            run(part.then_body, scene, seen, False)
        elif part.else_body is not None:
            run(part.else_body, scene, seen, True)
    return seen


def act(command, state):
    """Makes the fact of a command what the command says, and tells whether that changed it."""
    fact, value = fact_of(command.name, command.word)
    if (fact in state) == value:
        return False
    if value:
        state.add(fact)
    else:
        state.discard(fact)
    return True


def is_refused(seen):
    """Whether a request that did this counts as refused: its first command stands behind an `else`, or it has none."""
    for event in seen:
        if isinstance(event, Acted):
            return event.in_else
    return True


def start_of(layout):
    """The state at the start: every track is occupied, and all else is false."""
    return {fact_of(name, "o")[0] for name in layout.tracks}


def restrict(module, state):
    """Restricts all that is wired to a module."""
    for name, _ in module.pins:
        for word in {"P": ("xdn", "xdr"), "S": ("xlp",), "T": ("o",)}[name[0]]:
            act(Command(name, word, 0, 0), state)
