"""Markup made of pieces. Text is escaped unless it is markup already, so nothing of a layout becomes markup."""

import html
import json
import re


class Markup(str):
    """A piece of the page that is markup already."""


def safe(piece):
    """A piece as markup: text is escaped."""
    return piece if isinstance(piece, Markup) else Markup(html.escape(str(piece)))


def joined(pieces, between=""):
    """Pieces one behind another."""
    return Markup(safe(between).join(safe(piece) for piece in pieces))


def element(tag, *inside, **attributes):
    """An element. `class_` is the attribute `class`, and an attribute of `None` is left out."""
    written = "".join(
        f' {name.rstrip("_").replace("_", "-")}="{html.escape(str(value))}"'
        for name, value in attributes.items()
        if value is not None
    )
    return Markup(f"<{tag}{written}>{joined(inside)}</{tag}>")


def table(heads, rows, **attributes):
    """A table with a head, in a box that scrolls where the page is narrow."""
    head = element("tr", *(element("th", head, scope="col") for head in heads))
    body = (element("tr", *(element("td", cell) for cell in row)) for row in rows)
    whole = element("table", element("thead", head), element("tbody", *body), **attributes)
    return element("div", whole, class_="wide")


def lines(pieces):
    """Pieces each on a line of its own."""
    return joined((element("div", piece) for piece in pieces))


def code(piece):
    """A piece of the language."""
    return element("code", piece)


def sentence(markdown):
    """A sentence of docs/ with its code, and without its links."""
    without_links = re.sub(r"\[([^]]*)\]\([^)]*\)", r"\1", markdown)
    parts = without_links.split("`")
    return joined(code(part) if number % 2 else part for number, part in enumerate(parts))


def data(value):
    """Data for the page's script, in which no mark of markup stands."""
    written = json.dumps(value, separators=(",", ":"), ensure_ascii=True)
    return Markup(written.replace("<", "\\u003c").replace(">", "\\u003e").replace("&", "\\u0026"))
