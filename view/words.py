"""The words of the language: which fact of which kind of identity each is about, and what it says in full."""

from typing import NamedTuple

FILES = ("PTS", "SIG", "TCS", "RTE", "SUB", "FLG", "TFM", "PRR", "PFM", "FOP", "OPT", "IPT")

KINDS = {
    "P": "points",
    "S": "signal",
    "T": "track",
    "R": "route",
    "U": "sub-route",
    "L": "flag",
    "Q": "panel request",
}


class Fact(NamedTuple):
    """One thing that is true or false of an identity, as `('T1', 'occupied')`."""

    name: str
    aspect: str


class Aspect(NamedTuple):
    """What may be true of an identity of a kind: its two words, and how each is said in full."""

    name: str
    true_word: str
    false_word: str
    when_true: str
    when_false: str


# By kind, in the order in which the trace tells them.
ASPECTS = {
    "P": (
        Aspect("reverse", "cr", "cn", "controlled reverse", "controlled normal"),
        Aspect("detected normal", "dn", "xdn", "detected normal", "not detected normal"),
        Aspect("detected reverse", "dr", "xdr", "detected reverse", "not detected reverse"),
    ),
    "S": (Aspect("lamp", "lp", "xlp", "lamp proved", "lamp not proved"),),
    "T": (Aspect("occupied", "o", "c", "occupied", "clear"),),
    "R": (
        Aspect("set", "s", "xs", "set", "not set"),
        Aspect("barred", "xa", "a", "barred", "available"),
    ),
    "U": (Aspect("locked", "l", "f", "locked", "free"),),
    "L": (Aspect("set", "s", "xs", "set", "reset"),),
}

# The tests that no fact stands behind: controlled to a lie, or free to go there.
FREE_TESTS = {"cnf": "cn", "crf": "cr"}

LIES = {"cn": "normal", "cr": "reverse"}

_BY_WORD = {}
for _kind, _aspects in ASPECTS.items():
    for _aspect in _aspects:
        _BY_WORD[_kind, _aspect.true_word] = _aspect, True
        _BY_WORD[_kind, _aspect.false_word] = _aspect, False


def is_word_of(kind, word):
    """Whether the word is about a fact of this kind of identity."""
    return (kind, word) in _BY_WORD


def aspect_of(kind, word):
    """The aspect that a word is about, and whether the word says that it is true."""
    return _BY_WORD[kind, word]


def fact_of(name, word):
    """The fact that `name word` is about, and whether it says that the fact is true."""
    aspect, value = aspect_of(name[0], word)
    return Fact(name, aspect.name), value


def in_full(name, word):
    """What `name word` says, as `T1 is occupied`."""
    aspect, value = aspect_of(name[0], word)
    verb = "are" if name[0] == "P" else "is"
    if aspect.name == "lamp":
        return f"the lamp of {name} is {'proved' if value else 'not proved'}"
    return f"{name} {verb} {aspect.when_true if value else aspect.when_false}"


def word_now(fact, state):
    """The word that holds of a fact in a state, which is the set of the facts that are true."""
    for aspect in ASPECTS[fact.name[0]]:
        if aspect.name == fact.aspect:
            return aspect.true_word if fact in state else aspect.false_word
    raise KeyError(fact)
