"""Control tables, made from the data of the layout as a data checker compares them."""

from . import outputs, written
from .markup import code, element, joined, lines, table


def control_tables(layout):
    """All tables of a layout, those without rows left out."""
    tables = layout.tables()
    commanders = written.Commanders(layout)
    parts = [
        ("Routes", route_table(layout, tables)),
        ("Requests that set a route", setting_table(layout, commanders)),
        ("What unsets a route and frees a sub-route", release_table(layout, commanders)),
        ("Points", points_table(layout, tables, commanders)),
        ("Signals", signal_table(layout)),
        ("Bits that go out", bits_table(layout, tables)),
        ("Statements and their slots", statement_table(layout)),
    ]
    return joined(
        element("details", element("summary", f"{title} ({len(rows)})"), table(heads, rows), open_="")
        for title, (heads, rows) in parts
        if rows
    )


def route_table(layout, tables):
    """For each route its signal, and its sub-routes with their tracks and lies."""
    rows = []
    for route in layout.routes:
        subs = [tables.subs[name] for name in route.subs]
        lies = [f"{points} {lie}" for sub in subs for points, lie in sub.lies]
        rows.append(
            (
                code(route.name),
                code(route.signal),
                lines(code(sub.name) for sub in subs),
                lines(code(sub.track) for sub in subs),
                lines(code(lie) for lie in dict.fromkeys(lies)) if lies else "none",
            )
        )
    return ("Route", "From", "Sub-routes", "Tracks", "Points and lies"), rows


def setting_table(layout, commanders):
    """For each route the requests that set it, and what each tests."""
    rows = [
        (code(route.name), who, code(tests))
        for route in layout.routes
        for who, tests in commanders.of(route.name, "s")
    ]
    return ("Route", "Set by", "Where"), rows


def release_table(layout, commanders):
    """What unsets each route, and what frees each sub-route."""
    rows = []
    for name, word in [(route.name, "xs") for route in layout.routes] + [(sub.name, "f") for sub in layout.subs]:
        found = commanders.of(name, word) or [("nothing", "")]
        rows += [(code(f"{name} {word}"), who, code(tests) if tests else "") for who, tests in found]
    return ("Command", "By", "Where"), rows


def points_table(layout, tables, commanders):
    """For each points what must hold before they go to a lie, and who sends them there."""
    rows = []
    for points in layout.points:
        for lie in ("cn", "cr"):
            free = tables.free.get((points.name, lie))
            who = [f"{name}: {tests}" for name, tests in commanders.of(points.name, lie)]
            rows.append(
                (
                    code(f"{points.name} {lie}"),
                    lines(code(track) for track in points.tracks),
                    code(written.short(written.condition(free.condition))) if free else "no entry under PFM",
                    lines(code(one) for one in who) if who else "nobody",
                )
            )
    return ("Points to a lie", "Over", "Free where", "Commanded by"), rows


def signal_table(layout):
    """For each signal its routes, and what its bit that goes out asks for."""
    asks = {}
    modules = {module.address: module for module in layout.modules}
    for output in layout.outputs:
        module = modules[output.address]
        for bit in output.bits:
            for name, pin in module.pins:
                if module.kind == "signal" and pin == bit.number:
                    asks[name] = f"{output.address} bit {bit.number}", written.short(written.condition(bit.condition))
    rows = []
    for signal in layout.signals:
        bit, condition = asks.get(signal, ("none", ""))
        routes = [route.name for route in layout.routes if route.signal == signal]
        rows.append((code(signal), code(" ".join(routes)), bit, code(condition) if condition else ""))
    return ("Signal", "Routes from it", "Bit", "Proceed where"), rows


def bits_table(layout, tables):
    """Each bit that goes out, and the condition under which it is 1."""
    rows = []
    for output in layout.outputs:
        for bit in output.bits:
            says = outputs.bit_says(tables.modules[output.address], bit.number) or ""
            rows.append((f"{output.address} bit {bit.number}", says, code(written.short(written.condition(bit.condition)))))
    return ("Bit", "As 1 it", "Is 1 where"), rows


def statement_table(layout):
    """Each statement with the slot in which it has its turn."""
    share = max((len(layout.statements) + 63) // 64, 1)
    rows = [
        (
            number,
            number // share,
            code(written.short(", ".join(written.command(one) for one in statement.commands))),
            code(written.short(written.condition(statement.condition))),
        )
        for number, statement in enumerate(layout.statements)
    ]
    return ("Statement", "Slot", "Does", "Where"), rows
