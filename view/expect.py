"""Expectations that stand in the comments of a script, held against the run.

`/= R1:s P1:cr S1:proceed` behind some steps says what has to be so when these steps are done: facts by the
words of the trace, outputs by name, and `taken` or `refused` of the request that was taken last.
"""

from typing import List, NamedTuple

from . import faults, outputs, program, reader, story, tokens, values
from .trace import Full, Trace, apply
from .words import fact_of, is_word_of, word_now

OUTCOMES = ("taken", "refused")


class Expected(NamedTuple):
    """One thing that is expected: its words, its place, and the minor cycles that are made before it."""

    words: str
    line: int
    column: int
    cycles: int


def read_expected(source, text) -> List[Expected]:
    """The expectations of a script, in the order of the text."""
    lines = tokens.Lines(text)
    found = []
    cycles = 0
    steps = iter(source.steps)
    step = next(steps, None)
    for at in comments(text, source.script_at):
        while step is not None and step.end <= at:
            cycles += int(step.operands[0]) if step.word == "cycle" else 0
            step = next(steps, None)
        end = text.find("\n", at)
        for words, begin in expected_words(text, at, len(text) if end < 0 else end):
            found.append(Expected(words, *lines.place(begin), cycles))
    return found


def comments(text, begin):
    """The places of the comments behind `begin` that hold expectations."""
    at = text.find("/", begin)
    while at >= 0:
        if text.startswith("/=", at):
            yield at
        end = text.find("\n", at)
        at = text.find("/", end) if end >= 0 else -1


def expected_words(text, at, end):
    """The words of an expectation, up to a further `/`, each with its place."""
    begin = at + 2
    for words in text[begin:end].split():
        if words.startswith("/"):
            return
        begin = text.index(words, begin)
        yield words, begin
        begin += len(words)


class Judge:
    """The run as far as it was gone through, and what of the expectations doesn't hold."""

    def __init__(self, layout):
        self.layout = layout
        self.tables = layout.tables()
        self.state = values.start_of(layout)
        self.outputs = {
            output.expected(word): (output, word) for output in outputs.of_layout(layout) for word in output.words
        }
        self.names = {name for names in layout.names().values() for name in names}
        self.sent = {}
        self.asked = None

    def go_on(self, cycle):
        """Takes in the line of a minor cycle."""
        if cycle.taken:
            self.asked = story.asked(self.layout, self.tables, self.state, cycle)
        if cycle.sent:
            self.sent[cycle.slot] = cycle.commanded()
        apply(cycle.changes, self.state)

    def why_not(self, words):
        """Why something that is expected doesn't hold; nothing where it holds."""
        if words in OUTCOMES:
            return self.why_not_outcome(words)
        if words in self.outputs:
            return self.why_not_output(words)
        name, _, word = words.partition(":")
        if name not in self.names or not is_word_of(name[0], word):
            return "there is no such fact or output"
        fact, value = fact_of(name, word)
        if (fact in self.state) == value:
            return None
        return f"{name}:{word_now(fact, self.state)}"

    def why_not_outcome(self, words):
        """Why the request that was taken last isn't `taken` or `refused`."""
        if self.asked is None:
            return "no request was taken yet"
        what = f"{self.asked.request}, taken in minor cycle {self.asked.cycle}"
        if not self.asked.agrees:
            return f"what {what} did can't be told"
        if self.asked.refused == (words == "refused"):
            return None
        return f"{what}, counts as {'refused' if self.asked.refused else 'taken'}"

    def why_not_output(self, words):
        """Why an output isn't the expected one."""
        output, word = self.outputs[words]
        if output.address not in self.sent:
            return f"nothing was sent to {output.address} yet"
        now = output.word(self.sent[output.address])
        return None if now == word else output.expected(now)


def failing(source, text, trace):
    """The expectations that don't hold, each with the reason; those behind a fault of the script are among them."""
    judge = Judge(source.layout)
    left = read_expected(source, text)[::-1]
    for told in trace:
        while left and left[-1].cycles <= told.number:
            yield from judged(judge, left.pop())
        if not isinstance(told, Full):
            judge.go_on(told)
    reached = trace.cycles if not trace.faults else place_of(trace.faults[0])
    for expected in reversed(left):
        if trace.faults and (expected.line, expected.column) > reached:
            yield expected, "the run ends before, with a fault"
        else:
            yield from judged(judge, expected)


def place_of(fault):
    """The place of a fault, to be compared."""
    return fault.line, fault.column


def judged(judge, expected):
    """The expectation with its reason, where it doesn't hold."""
    reason = judge.why_not(expected.words)
    if reason is not None:
        yield expected, reason


def answer(name, text, progress):
    """`--expect`: prints what doesn't hold; 0 where all holds, 1 where something doesn't or there is a fault."""
    spelled = text.decode("latin-1")
    run = program.Program(["run"], text)
    trace = Trace(run, progress)
    source = reader.read(spelled)
    if source.script_at is None:
        list(trace)
        return answer_faults(trace, spelled, name, run.status)
    count = 0
    for expected, reason in failing(source, spelled, trace):
        count += 1
        after = f"after minor cycle {expected.cycles - 1}" if expected.cycles else "at the start"
        print(f"{name}:{expected.line}:{expected.column}: expected {expected.words} {after}: {reason}")
    if trace.faults or run.status:
        return answer_faults(trace, spelled, name, run.status)
    total = len(read_expected(source, spelled))
    print(f"look: {total - count} of {total} expectations hold")
    return 1 if count else 0


def answer_faults(trace, text, name, status):
    """The faults of a text that wasn't run to its end."""
    for line in faults.printed(faults.told(trace.faults, text), text, name):
        print(line)
    return 1 if status in (0, 1, 7) else status
