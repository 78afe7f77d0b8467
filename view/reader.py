"""The language read: a text that `ssi` has accepted becomes a layout and the steps of its script.

A text that `ssi` has refused is read to explain why: what stands at a place, and what may stand there. Then
the reading goes on behind the next `.`, and what it finds there is a guess, since nobody can know what was
meant. The first fault found here is the one that `ssi` tells.
"""

from typing import List, NamedTuple, Optional

from . import tokens
from .layout import (
    Bit,
    Choice,
    Command,
    Free,
    Group,
    Input,
    Layout,
    Module,
    Output,
    OutputBit,
    Points,
    Request,
    Route,
    Statement,
    SubRoute,
    Test,
)
from .words import FILES, KINDS, LIES

WORDS = frozenset("cn cr cnf crf dn xdn dr xdr lp xlp o c s xs a xa l f h".split())
DEEPEST = 8
GUESSES = 50

MODULE_KINDS = {"points": "P", "signal": "S", "track": "T"}
NAME_STEPS = {"occupy": "T", "clear": "T", "fail": "S", "mend": "S", "jam": "P", "unjam": "P"}
ADDRESS_STEPS = ("dead", "live", "lose", "drop")
LARGEST_BYTE = 255


class Step(NamedTuple):
    """A step of the script: its word, and the names and numbers behind it."""

    word: str
    operands: List[str]
    at: int
    end: int


class Slip(NamedTuple):
    """A place where the text isn't spelled: the code, the token that stands there, and what may stand there."""

    code: str
    token: tokens.Token
    wanted: List[str]


class Source(NamedTuple):
    """A text read: its layout, the steps of its script, where the script begins, and what isn't spelled."""

    layout: Layout
    steps: List[Step]
    script_at: Optional[int]
    slips: List[Slip]


class Misspelled(Exception):
    """The tokens go on with nothing that may stand here."""

    def __init__(self, code, token, wanted):
        super().__init__(code)
        self.slip = Slip(code, token, wanted)


class Cursor:
    """The tokens that are left, and what was looked for since the last of them was taken."""

    def __init__(self, text):
        self.tokens = tokens.cut(text)
        self.index = 0
        self.wanted = []
        self.in_script = False

    @property
    def next(self):
        """The token that comes next."""
        return self.tokens[self.index]

    def take(self):
        """Takes the next token."""
        token = self.tokens[self.index]
        self.index += 1
        self.wanted = []
        return token

    def is_at(self, kind, text):
        """Whether the next token is this word or mark; if not, that it may stand here is remembered."""
        token = self.tokens[self.index]
        if token.text == text and token.kind == kind:
            return True
        self.wanted.append(f"`{text}`")
        return False

    def is_at_kind(self, kind, what):
        """Whether the next token is of this kind; if not, that such a thing may stand here is remembered."""
        if self.tokens[self.index].kind == kind:
            return True
        self.wanted.append(what)
        return False

    def is_at_name(self, letters, what):
        """Whether the next token is an identity's name that begins with one of the letters."""
        token = self.tokens[self.index]
        if token.kind == "name" and len(token.text) > 1 and token.text[0] in letters:
            return True
        self.wanted.append(what)
        return False

    def skip(self, kind, text):
        """Takes the word or mark if it comes next, and says whether it did."""
        if self.is_at(kind, text):
            self.take()
            return True
        return False

    def refuse(self, code=None):
        """Nothing that was looked for stands here."""
        token = self.next
        if code is None:
            code = "R1" if self.in_script else token.kind if token.kind in ("L1", "L2", "L3") else "S1"
        raise Misspelled(code, token, list(dict.fromkeys(self.wanted)))

    def word(self, text):
        """Takes this word."""
        if not self.is_at("word", text):
            self.refuse()
        return self.take()

    def mark(self, text):
        """Takes this mark."""
        if not self.is_at("mark", text):
            self.refuse()
        return self.take()

    def name(self, letters):
        """Takes an identity's name of one of these kinds."""
        if not self.is_at_name(letters, name_of(letters)):
            self.refuse()
        return self.take().text

    def number(self, what="a number"):
        """Takes a number."""
        if not self.is_at_kind("number", what):
            self.refuse()
        return int(self.take().text)

    def one_of(self, texts):
        """Takes one of these words."""
        token = self.next
        if token.kind == "word" and token.text in texts:
            return self.take()
        self.wanted.extend(f"`{text}`" for text in texts)
        return self.refuse()

    def list_of(self, read):
        """Reads one thing or more, with `,` between them."""
        read_so_far = [read(self)]
        while self.skip("mark", ","):
            read_so_far.append(read(self))
        return read_so_far


def name_of(letters):
    """What a name of these kinds is called where it is wanted."""
    if len(letters) == 1:
        return f"a {KINDS[letters]}'s name" if letters != "P" else "the name of points"
    return "an identity's name"


TESTED = "PSTRUL"


def condition(cursor, depth=0):
    """`item { , item }`."""
    return cursor.list_of(lambda at: item(at, depth))


def item(cursor, depth):
    """`X word`, `N h`, `N l` or a group."""
    at = cursor.next.at
    if cursor.is_at_name(TESTED, "an identity's name"):
        name = cursor.take().text
        word = tested_word(cursor)
        return Test(name, word.text, at, word.end)
    if cursor.is_at_kind("number", "a bit's number"):
        number = int(cursor.take().text)
        word = cursor.one_of(("h", "l"))
        return Bit(number, word.text, at, word.end)
    if not cursor.is_at("mark", "("):
        cursor.refuse()
    if depth == DEEPEST:
        cursor.wanted.pop()
        cursor.refuse("S2")
    return group(cursor, depth + 1, at)


def group(cursor, depth, at):
    """`( cond or cond { or cond } )`."""
    cursor.mark("(")
    alternatives = [condition(cursor, depth)]
    cursor.word("or")
    alternatives.append(condition(cursor, depth))
    while cursor.skip("word", "or"):
        alternatives.append(condition(cursor, depth))
    return Group(alternatives, at, cursor.mark(")").end)


def tested_word(cursor):
    """One of the nineteen words."""
    token = cursor.next
    if token.kind == "word" and token.text in WORDS:
        return cursor.take()
    cursor.wanted.append("a word, as `s`, `c` or `l`")
    return cursor.refuse()


def command(cursor):
    """`X word`."""
    at = cursor.next.at
    name = cursor.name(TESTED)
    word = tested_word(cursor)
    return Command(name, word.text, at, word.end)


def body(cursor, depth=0):
    """`part { , part }`."""
    return cursor.list_of(lambda at: part(at, depth))


def part(cursor, depth):
    """A command or a choice."""
    if cursor.is_at_name(TESTED, "an identity's name"):
        return command(cursor)
    if not cursor.is_at("word", "if"):
        cursor.refuse()
    if depth == DEEPEST:
        cursor.refuse("S2")
    at = cursor.take().at
    guard = condition(cursor)
    cursor.word("then")
    then_body = body(cursor, depth + 1)
    else_body = body(cursor, depth + 1) if cursor.skip("word", "else") else None
    return Choice(guard, then_body, else_body, at, cursor.word("end").end)


def read_points(cursor, layout):
    """`P over T { , T } .`"""
    name = cursor.name("P")
    cursor.word("over")
    tracks = cursor.list_of(lambda at: at.name("T"))
    cursor.mark(".")
    layout.points.append(Points(name, tracks))


def name_reader(letter, where):
    """`X .`, for the files whose entries are names alone."""

    def read_name(cursor, layout):
        """Reads one."""
        name = cursor.name(letter)
        cursor.mark(".")
        getattr(layout, where).append(name)

    return read_name


def read_route(cursor, layout):
    """`R from S by U { , U } .`"""
    name = cursor.name("R")
    cursor.word("from")
    signal = cursor.name("S")
    cursor.word("by")
    subs = cursor.list_of(lambda at: at.name("U"))
    cursor.mark(".")
    layout.routes.append(Route(name, signal, subs))


def read_sub(cursor, layout):
    """`U on T [ with P lie { , P lie } ] .`"""
    name = cursor.name("U")
    cursor.word("on")
    track = cursor.name("T")
    lies = []
    if cursor.skip("word", "with"):
        lies = cursor.list_of(lambda at: (at.name("P"), at.one_of(LIES).text))
    cursor.mark(".")
    layout.subs.append(SubRoute(name, track, lies))


def read_module(cursor, layout):
    """`N points [ P at N { , P at N } ] .` and the same of signals and tracks."""
    address = cursor.number("an address")
    kind = cursor.one_of(MODULE_KINDS).text
    letter = MODULE_KINDS[kind]

    def pin(at):
        """`X at N`."""
        name = at.name(letter)
        at.word("at")
        return name, at.number("a pin's number")

    pins = [] if cursor.is_at("mark", ".") else cursor.list_of(pin)
    cursor.mark(".")
    layout.modules.append(Module(address, kind, pins))


def read_request(cursor, layout):
    """`Q body .`"""
    at = cursor.next.at
    name = cursor.name("Q")
    parts = body(cursor)
    layout.requests.append(Request(name, parts, at, cursor.mark(".").end))


def read_free(cursor, layout):
    """`P lie if cond .`"""
    at = cursor.next.at
    points = cursor.name("P")
    lie = cursor.one_of(LIES).text
    cursor.word("if")
    items = condition(cursor)
    layout.free.append(Free(points, lie, items, at, cursor.mark(".").end))


def read_statement(cursor, layout):
    """`command { , command } if cond .`"""
    at = cursor.next.at
    commands = cursor.list_of(command)
    cursor.word("if")
    items = condition(cursor)
    layout.statements.append(Statement(commands, items, at, cursor.mark(".").end))


def read_output(cursor, layout):
    """`N bit N if cond { bit N if cond } .`"""
    address = cursor.number("an address")
    bits = [output_bit(cursor)]
    while cursor.is_at("word", "bit"):
        bits.append(output_bit(cursor))
    cursor.mark(".")
    layout.outputs.append(Output(address, bits))


def output_bit(cursor):
    """`bit N if cond`."""
    at = cursor.word("bit").at
    number = cursor.number("a bit's number")
    cursor.word("if")
    items = condition(cursor)
    return OutputBit(number, items, at, cursor.tokens[cursor.index - 1].end)


def read_input(cursor, layout):
    """`N body .`"""
    at = cursor.next.at
    address = cursor.number("an address")
    parts = body(cursor)
    layout.inputs.append(Input(address, parts, at, cursor.mark(".").end))


# By file: how an entry begins, and how it is read.
ENTRIES = {
    "PTS": ("P", read_points),
    "SIG": ("S", name_reader("S", "signals")),
    "TCS": ("T", name_reader("T", "tracks")),
    "RTE": ("R", read_route),
    "SUB": ("U", read_sub),
    "FLG": ("L", name_reader("L", "flags")),
    "TFM": ("number", read_module),
    "PRR": ("Q", read_request),
    "PFM": ("P", read_free),
    "FOP": (TESTED, read_statement),
    "OPT": ("number", read_output),
    "IPT": ("number", read_input),
}


def is_at_entry(cursor, file):
    """Whether an entry of the file begins here."""
    begins = ENTRIES[file][0]
    if begins == "number":
        return cursor.is_at_kind("number", "an entry, which begins with an address")
    return cursor.is_at_name(begins, f"an entry, which begins with {name_of(begins)}")


def step(cursor):
    """A step of the script up to its `.`."""
    at = cursor.next.at
    word = cursor.one_of(("panel", "cycle", *NAME_STEPS, "raw", *ADDRESS_STEPS)).text
    operands = [spelled(cursor) for spelled in operands_of(word)]
    return Step(word, operands, at, cursor.mark(".").end)


def operands_of(word):
    """What stands behind the word of a step."""
    if word == "panel":
        return (lambda at: bounded(at, 0, 0, "`0`, the panel"), any_name)
    if word == "cycle":
        return (lambda at: bounded(at, 1, None, "a number from 1 on"),)
    if word in NAME_STEPS:
        return (any_name,)
    address = (lambda at: bounded(at, 0, None, "an address"),)
    if word == "raw":
        return address + (lambda at: bounded(at, 0, LARGEST_BYTE, "a byte, 0 to 255"),) * 4
    return address


def any_name(cursor):
    """Takes a name of any kind."""
    if not cursor.is_at_kind("name", "a name"):
        cursor.refuse()
    return cursor.take().text


def bounded(cursor, least, most, what):
    """Takes a number within its bounds, as it is written."""
    token = cursor.next
    cursor.wanted.append(what)
    if token.kind != "number" or int(token.text) < least or (most is not None and int(token.text) > most):
        cursor.refuse()
    return cursor.take().text


class Reading:
    """A text on its way to a layout and steps. With `on` it goes on behind what isn't spelled."""

    def __init__(self, text, on):
        self.cursor = Cursor(text)
        self.layout = Layout()
        self.steps = []
        self.script_at = None
        self.slips = []
        self.on = on

    def note(self, misspelled):
        """Keeps what isn't spelled, and says whether to go on."""
        self.slips.append(misspelled.slip)
        return self.on and len(self.slips) < GUESSES

    def behind_the_next_dot(self):
        """Passes over what is left of an entry, up to its `.` or to the next `file`."""
        cursor = self.cursor
        while cursor.next.kind != "end" and cursor.next.text != "file":
            if cursor.take().text == ".":
                return

    def layout_files(self):
        """The twelve files, and whether the reading may go on to the script."""
        wanted = 0
        while wanted < len(FILES):
            try:
                file = self.header(FILES[wanted])
            except Misspelled as misspelled:
                if not self.note(misspelled):
                    return False
                file = self.header_meant(wanted)
                if file is None:
                    return self.cursor.next.kind != "end"
            if not self.entries(file):
                return False
            wanted = FILES.index(file) + 1
        return True

    def header(self, file):
        """`file` and its name."""
        self.cursor.word("file")
        if not self.cursor.is_at("name", file):
            self.cursor.refuse()
        return self.cursor.take().text

    def header_meant(self, wanted):
        """Which file a header that isn't the one wanted may have been meant for; none where the layout is over."""
        cursor = self.cursor
        if cursor.next.kind == "end":
            return None
        if cursor.next.kind == "name" and cursor.tokens[cursor.index - 1].text == "file":
            if cursor.next.text == "RUN":
                cursor.index -= 1
                return None
            name = cursor.take().text
            return name if name in FILES else FILES[wanted]
        if wanted == 0:
            return self.first_header()
        self.behind_the_next_dot()
        return FILES[wanted - 1]

    def first_header(self):
        """The first file of a text that doesn't begin with one; none where it has none."""
        cursor = self.cursor
        while cursor.next.kind != "end":
            if cursor.take().text == "file" and cursor.next.text in FILES:
                return cursor.take().text
        return None

    def entries(self, file):
        """The entries of a file, and whether the reading goes on behind them."""
        cursor = self.cursor
        last = file == FILES[-1]
        while True:
            try:
                if is_at_entry(cursor, file):
                    ENTRIES[file][1](cursor, self.layout)
                elif cursor.is_at("word", "file") or (last and cursor.next.kind == "end"):
                    return True
                else:
                    cursor.refuse()
            except Misspelled as misspelled:
                if not self.note(misspelled) or cursor.next.kind == "end":
                    return False
                self.behind_the_next_dot()

    def script(self):
        """`file RUN` and the steps."""
        cursor = self.cursor
        cursor.in_script = True
        self.script_at = cursor.next.at
        try:
            self.header("RUN")
        except Misspelled as misspelled:
            if not self.note(misspelled) or cursor.next.kind == "end":
                return
            cursor.take()
        while cursor.next.kind != "end":
            try:
                cursor.wanted = []
                self.steps.append(step(cursor))
            except Misspelled as misspelled:
                if not self.note(misspelled) or cursor.next.kind == "end":
                    return
                if cursor.next.text == "file":
                    cursor.take()
                self.behind_the_next_dot()


def read(text, on=False):
    """Reads a text. With `on` it goes on behind each place that isn't spelled, by guessing."""
    reading = Reading(text, on)
    if reading.layout_files():
        reading.script()
    return Source(reading.layout, reading.steps, reading.script_at, reading.slips)
