"""A text cut into tokens, each with its place, and the places of what is no token.

A text is held as a `str` with one character for each byte (`latin-1`), so that places are counted in bytes,
as `ssi` counts them, whatever bytes stand in the comments.
"""

import bisect
import re
from typing import NamedTuple

_CUTTING = re.compile(
    r"[ \t\r\n]+|/[^\n]*"
    r"|(?P<name>[A-Z][A-Z0-9-]*)|(?P<word>[a-z]+)|(?P<number>[0-9]+)|(?P<mark>[,.()])|(?P<L1>.)",
    re.DOTALL,
)
LONGEST_NAME = 16
LONGEST_NUMBER = 7


class Token(NamedTuple):
    """A token of the text. Its kind is `name`, `word`, `number`, `mark` or `end`, or the code of what is none."""

    kind: str
    text: str
    at: int

    @property
    def end(self):
        """The place just behind the token."""
        return self.at + len(self.text)


def _kind_of(group, text):
    """The kind of a run of characters: a name or a number may be none, by its length or a leading zero."""
    if group == "name" and len(text) > LONGEST_NAME:
        return "L2"
    if group == "number" and (len(text) > LONGEST_NUMBER or (text[0] == "0" and len(text) > 1)):
        return "L3"
    return group


def cut(text):
    """All tokens of the text, those that are none among them, and one of kind `end` behind the last."""
    tokens = []
    for match in _CUTTING.finditer(text):
        group = match.lastgroup
        if group:
            run = match.group()
            tokens.append(Token(_kind_of(group, run), run, match.start()))
    tokens.append(Token("end", "", len(text)))
    return tokens


class Lines:
    """The lines of a text, for places as a line and a column, both from 1."""

    def __init__(self, text):
        self.text = text
        self._begins = [0] + [match.end() for match in re.finditer("\n", text)]

    def place(self, at):
        """The line and the column of a byte."""
        line = bisect.bisect_right(self._begins, at)
        return line, at - self._begins[line - 1] + 1

    def line(self, number):
        """A line of the text without its end; nothing past the last."""
        if not 1 <= number <= len(self._begins):
            return ""
        begin = self._begins[number - 1]
        end = self.text.find("\n", begin)
        return self.text[begin:] if end < 0 else self.text[begin:end]


def shown(piece):
    """A piece of the text as it is shown: read as UTF-8, with a mark where it is none."""
    return piece.encode("latin-1").decode("utf-8", "replace")
