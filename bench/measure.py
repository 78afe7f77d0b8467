"""Makes inputs in a temporary folder, times a program on them, and prints the figures.

Each input is run fifteen times, with its output into a file. Two times are printed: the least processor time,
on which other work on the machine counts as little as it may, and the middle time by the clock. Status and
output are looked at: a run that answers something else than is expected ends the bench. Where figures are
asked of an input, it is printed whether they are kept, by the one time and by the other.
"""

import collections
import itertools
import os
import resource
import shutil
import statistics
import subprocess
import sys
import tempfile
import time

LIMIT = 2_097_152
RUNS = 15
FLAGS = 512
REQUESTS = 1_024
STATEMENTS = 4_096
TRACKS = 504
WAITING = 64
CHOICES = 64
TESTS_ASKED = 200_000_000
LEVELS = 8
BITS = 8
SECONDS_ASKED = 0.25
CYCLES = 1_000_000
QUIET_ASKED = 0.10
TRAINS_ASKED = 0.12
# Points, signals and tracks: as many as 63 modules can wire with the others.
WIRED = 20, 208, 216
MEMORY_ASKED = 96 * 2**20
CHARACTERS = "ABCDEFGHIJKLMNOPQRSTUVWXYZ0123456789-"
FILES = "PTS SIG TCS RTE SUB FLG TFM PRR PFM FOP OPT IPT".split()


def names(letter, count, length=3):
    """The first names of so many characters that begin with the letter."""
    rests = itertools.product(CHARACTERS, repeat=length - 1)
    return [letter + "".join(rest) for rest in itertools.islice(rests, count)]


def layout(files):
    """Twelve files; the dictionary has the entries of those that aren't empty."""
    return "".join(f"file {name}\n{files.get(name, '')}" for name in FILES)


def entered(entries):
    """Entries, each on a line and with its end."""
    return "".join(f"{entry} .\n" for entry in entries)


def text(flags, requests, script):
    """Twelve files with these flags and requests, and a script."""
    files = {"FLG": entered(flags), "PRR": entered(f"{name} {body}" for name, body in requests)}
    return layout(files) + "file RUN\n" + script


def idle():
    """1,000,000 idle minor cycles, and how many lines they are."""
    requests = [("QA", "if LA xs then LA s else LA xs end")]
    return text(["LA"], requests, "cycle 1000000 .\n"), 1_000_000


def part(flags, at):
    """A choice that acts on four flags from a place on."""
    a, b, c, d = (flags[(at + step) % FLAGS] for step in range(4))
    return f"if {a} s,{b} xs then {a} xs,{c} s else {a} s,{d} xs end"


def body(flags, at):
    """Six items: a command, a choice, and the same twice more."""
    items = []
    for turn in range(3):
        items += [f"{flags[(at * 5 + turn) % FLAGS]} {'s' if turn % 2 else 'xs'}"]
        items += [part(flags, at * 7 + turn * 4)]
    return ",".join(items)


def busy():
    """900,000 minor cycles: 64 puts and as many cycles while the limit lasts, and then idle ones.

    The puts stand without a separator where none is needed, so that as many as can be are in the text.
    """
    flags, requests = names("L", FLAGS), names("Q", REQUESTS)
    entries = [(name, body(flags, at)) for at, name in enumerate(requests)]
    size = len(text(flags, entries, ""))
    rounds, turn = [], itertools.cycle(requests)
    while True:
        puts = "".join(f"panel0{next(turn)}." for _ in range(WAITING))
        one = f"{puts}cycle{WAITING}.\n"
        if size + len(one) + 16 > LIMIT:
            break
        rounds.append(one)
        size += len(one)
    rest = 900_000 - WAITING * len(rounds)
    made = text(flags, entries, "".join(rounds) + f"cycle {rest}.\n")
    return made, 900_000, WAITING * len(rounds)


def tests():
    """A condition of 1,000 tests that all hold, valued a million times, and how many minor cycles that takes.

    A request's body has 64 choices with this condition; each minor cycle takes the request once.
    """
    flags = names("L", FLAGS)
    guard = ",".join(f"{flag}xs" for flag in turns(flags, 0, 1_000))
    body = ",".join([f"if {guard} then {flags[0]} xs end"] * CHOICES)
    cycles = 1_000_000 // CHOICES
    return text(flags, [("QA", body)], "panel0QA.cycle1." * cycles), cycles


def entries():
    """2,000,000 bytes: 512 flags, and 1,024 requests with long bodies."""
    flags, requests = names("L", FLAGS), names("Q", REQUESTS)
    size = 2_000_000 - len(text(flags, [(name, "") for name in requests], "cycle 1 .\n"))
    made, place = [], 0
    for at, name in enumerate(requests):
        share = size * (at + 1) // REQUESTS - size * at // REQUESTS
        items = []
        while True:
            item = part(flags, place)
            if len(",\n".join([*items, item])) > share:
                break
            items.append(item)
            place += 4
        made.append((name, ",\n".join(items)))
    whole = text(flags, made, "cycle 1 .\n")
    return whole + " " * (2_000_000 - len(whole))


def commands():
    """2,000,000 bytes: one flag, and 1,024 requests of nothing but commands of three characters."""
    requests = names("Q", REQUESTS)
    room = 2_000_000 - len(text(["LA"], [(name, "") for name in requests], "cycle 1 .\n"))
    body = ",".join(["LAs"] * (room // REQUESTS // 4))
    whole = text(["LA"], [(name, body) for name in requests], "cycle 1 .\n")
    return whole + " " * (2_000_000 - len(whole))


def turns(items, at, count):
    """So many items from a place on, round and round."""
    return [items[(at + step) % len(items)] for step in range(count)]


def module(address, kind, wired):
    """An entry of TFM with its pins from 0 on."""
    pins = ", ".join(f"{name} at {pin}" for pin, name in enumerate(wired))
    return f"{address} {kind} {pins}"


def wiring(points, signals, tracks):
    """Modules for all of these: two points in one, eight signals or tracks."""
    sorts = [("points", points, 2), ("signal", signals, 8), ("track", tracks, 8)]
    groups = [(kind, at[i : i + size]) for kind, at, size in sorts for i in range(0, len(at), size)]
    return [module(address, kind, wired) for address, (kind, wired) in enumerate(groups, 1)]


def filled():
    """2,000,000 bytes without a fault, with each limit filled as far as 63 modules allow.

    63 modules can't wire as many points, signals and tracks as there may be. Here 10 of them have 20 points,
    26 have 208 signals and 27 have 216 tracks; of all else there is as much as there may be. What is left of
    the size goes to the requests, each a list of choices over identities of every kind.
    """
    points, signals, tracks = names("P", 20), names("S", 208), names("T", 216)
    routes, subs, flags = names("R", 512), names("U", 1_024), names("L", FLAGS)
    requests = names("Q", REQUESTS)
    files = {
        "PTS": entered(f"{p} over {','.join(turns(tracks, 4 * i, 4))}" for i, p in enumerate(points)),
        "SIG": entered(signals),
        "TCS": entered(tracks),
        "RTE": entered(
            f"{r} from {signals[i % len(signals)]} by {','.join(turns(subs, 2 * i, 32))}"
            for i, r in enumerate(routes)
        ),
        "SUB": entered(
            f"{u} on {tracks[i % len(tracks)]} with {','.join(p + ' cr' for p in turns(points, i, 8))}"
            for i, u in enumerate(subs)
        ),
        "FLG": entered(flags),
        "TFM": entered(wiring(points, signals, tracks)),
        "PRR": entered(f"{q} " for q in requests),  # to be filled below
    }

    def choice(at):
        """A choice over one identity of each kind but the signals."""
        p, t, r, u, f = (kind[at % len(kind)] for kind in (points, tracks, routes, subs, flags))
        return f"if {r} a,{t} c,{u} f,{p} cn then {r} s,{p} cr,{u} l,{f} s else {f} xs end"

    size = 2_000_000 - len(layout(files)) - len("file RUN\ncycle 1 .\n")
    count = size // REQUESTS // (len(choice(0)) + 1)
    files["PRR"] = entered(
        f"{q} {','.join(choice(i * count + turn) for turn in range(count))}" for i, q in enumerate(requests)
    )
    whole = layout(files) + "file RUN\ncycle 1 .\n"
    return whole + " " * (2_000_000 - len(whole))


def mixed(forms, flags, points):
    """Tests or commands of these forms, each for a flag and points, round and round."""
    named = zip(flags, itertools.cycle(points))
    return itertools.cycle([form.format(flag=f, points=p) for f, p in named for form in forms])


def deepest(tests):
    """A condition whose groups lie in one another as deep as they may, of the next tests."""
    made = next(tests)
    for _ in range(LEVELS):
        made = f"({made} or {next(tests)})"
    return made


def deepest_body(tests, commands):
    """A body whose choices lie in one another as deep as they may, behind `then` and behind `else` by turns.

    Each of its guards is as deep as it may be too.
    """
    made = next(commands)
    for level in range(LEVELS):
        branches = (made, next(commands)) if level % 2 else (next(commands), made)
        made = f"if {deepest(tests)} then {branches[0]} else {branches[1]} end"
    return made


def nested():
    """2,000,000 bytes without a fault, in rules that are as deep as rules may be.

    62 modules have 124 points, and one the track that they lie over. There are a rule for each lie of points,
    4,096 statements, and for each module eight bits that go out and what its reports do. What is left of the
    size goes to the requests.
    """
    points, flags, requests = names("P", 124), names("L", FLAGS), names("Q", REQUESTS)
    modules = range(1, 64)
    tested = ["{flag} s", "{points} dn", "{flag} xs", "{points} cr"]
    plain = mixed(tested, flags, points)
    free = mixed([*tested, "{points} cnf", "{points} crf"], flags, points)
    reported = mixed([*tested, "{points} cnf", "0 h", "7 l"], flags, points)
    decisions = mixed(["{flag} s", "{points} cn"], flags, points)
    reports = mixed(["{flag} xs", "{points} xdn"], flags, points)
    files = {
        "PTS": entered(f"{p} over TA" for p in points),
        "TCS": entered(["TA"]),
        "FLG": entered(flags),
        "TFM": entered(wiring(points, [], ["TA"])),
        "PRR": entered(f"{q} " for q in requests),  # to be filled below
        "PFM": entered(f"{p} {lie} if {deepest(plain)}" for p in points for lie in ("cn", "cr")),
        "FOP": entered(f"{next(decisions)} if {deepest(free)}" for _ in range(STATEMENTS)),
        "OPT": entered(
            f"{m} " + " ".join(f"bit {bit} if {deepest(free)}" for bit in range(BITS)) for m in modules
        ),
        "IPT": entered(f"{m} {deepest_body(reported, reports)}" for m in modules),
    }
    size = 2_000_000 - len(layout(files)) - len("file RUN\ncycle 1 .\n")
    bodies = []
    while True:
        body = deepest_body(free, decisions)
        size -= len(body) + 1
        if size < 0:
            break
        bodies.append(body)
    shares = [bodies[len(bodies) * i // REQUESTS : len(bodies) * (i + 1) // REQUESTS] for i in range(REQUESTS)]
    files["PRR"] = entered(f"{q} {','.join(share)}" for q, share in zip(requests, shares))
    whole = layout(files) + "file RUN\ncycle 1 .\n"
    return whole + " " * (2_000_000 - len(whole))


def inputs(points, signals, tracks):
    """An input for each module: each report of eight 1s says what was so before."""
    entries, address = [], 0
    for names_of, size, forms in [
        (points, 2, ["if {bit} h then {name} dn end", "if {next} h then {name} dr end"]),
        (signals, 8, ["if {bit} h then {name} lp else {name} xlp end"]),
        (tracks, 8, ["if {bit} h then {name} c else {name} o end"]),
    ]:
        for at in range(0, len(names_of), size):
            address += 1
            wide = len(forms)
            items = [
                form.format(bit=wide * pin, next=wide * pin + 1, name=name)
                for pin, name in enumerate(names_of[at : at + size])
                for form in forms
            ]
            entries.append(f"{address} {','.join(items)}")
    return entries


def outputs(points, signals, tracks, flags):
    """Conditions for the bits of each module of points and signals."""
    entries, address = [], 0
    for at in range(0, len(points), 2):
        address += 1
        bits = [f"bit {2 * pin} if {p} cn bit {2 * pin + 1} if {p} cr" for pin, p in enumerate(points[at : at + 2])]
        entries.append(f"{address} {' '.join(bits)}")
    for at in range(0, len(signals), 8):
        address += 1
        bits = [f"bit {pin} if {flags[(at + pin) % FLAGS]} s,{tracks[(at + pin) % len(tracks)]} c" for pin in range(8)]
        entries.append(f"{address} {' '.join(bits)}")
    return entries


def limits():
    """A layout with its limits filled as far as 63 modules allow, each slot with 64 statements, run for 1,000,000 minor cycles."""
    points, signals, tracks = names("P", WIRED[0]), names("S", WIRED[1]), names("T", WIRED[2])
    routes, subs, flags = names("R", 512), names("U", 1_024), names("L", FLAGS)
    statements = [
        f"{subs[i % len(subs)]} f if {routes[i % len(routes)]} xs,{tracks[i % len(tracks)]} c" for i in range(STATEMENTS)
    ]
    bodies = [
        f"{q} if {routes[i % len(routes)]} a,{tracks[i % len(tracks)]} c,{points[i % len(points)]} crf then"
        f" if {flags[i % FLAGS]} s then {flags[i % FLAGS]} xs else {flags[i % FLAGS]} s end end"
        for i, q in enumerate(names("Q", REQUESTS))
    ]
    files = layout(
        {
            "PTS": entered(f"{p} over {','.join(turns(tracks, 4 * i, 4))}" for i, p in enumerate(points)),
            "SIG": entered(signals),
            "TCS": entered(tracks),
            "RTE": entered(
                f"{r} from {signals[i % len(signals)]} by {','.join(turns(subs, 2 * i, 32))}" for i, r in enumerate(routes)
            ),
            "SUB": entered(
                f"{u} on {tracks[i % len(tracks)]} with {','.join(p + ' cr' for p in turns(points, i, 8))}"
                for i, u in enumerate(subs)
            ),
            "FLG": entered(flags),
            "TFM": entered(wiring(points, signals, tracks)),
            "PRR": entered(bodies),
            "PFM": entered(f"{p} cr if {tracks[i]} c" for i, p in enumerate(points)),
            "FOP": entered(statements),
            "OPT": entered(outputs(points, signals, tracks, flags)),
            "IPT": entered(inputs(points, signals, tracks)),
        }
    )
    return files + f"file RUN\ncycle {CYCLES} .\n"


JUNCTION = {
    "PTS": ["P1 over T2"],
    "SIG": ["S1", "S2"],
    "TCS": ["T1", "T2", "T3"],
    "RTE": ["R1 from S1 by U1, U2", "R2 from S2 by U3, U4"],
    "SUB": ["U1 on T2 with P1 cr", "U2 on T3", "U3 on T3", "U4 on T2 with P1 cr"],
    "TFM": ["1 points P1 at 0", "2 signal S1 at 0, S2 at 1", "3 track T1 at 0, T2 at 1, T3 at 2"],
    "PRR": [
        "Q1 if R1 a, P1 crf, U3 f, U4 f then R1 s, P1 cr, U1 l, U2 l end",
        "Q2 if R2 a, P1 crf, U1 f, U2 f then R2 s, P1 cr, U3 l, U4 l end",
        "Q3 if P1 cnf then P1 cn end",
    ],
    "PFM": ["P1 cn if T2 c, U1 f, U4 f", "P1 cr if T2 c"],
    "FOP": [
        "U1 f if R1 xs, T2 c",
        "U2 f if U1 f, T3 c",
        "U3 f if R2 xs, T3 c",
        "U4 f if U3 f, T2 c",
        "R1 xs if T2 o, U1 l",
        "R2 xs if T3 o, U3 l",
    ],
    "OPT": [
        "1 bit 0 if P1 cn bit 1 if P1 cr",
        "2 bit 0 if R1 s, U1 l, U2 l, P1 dr, T2 c, T3 c bit 1 if R2 s, U3 l, U4 l, P1 dr, T2 c, T3 c",
    ],
    "IPT": [
        "1 if 0 h then P1 dn else P1 xdn end, if 1 h then P1 dr else P1 xdr end",
        "2 if 0 h then S1 lp else S1 xlp end, if 1 h then S2 lp else S2 xlp end",
        "3 if 0 h then T1 c else T1 o end, if 1 h then T2 c else T2 o end, if 2 h then T3 c else T3 o end",
    ],
}


def junction(script):
    """The junction of the examples, with a script."""
    return layout({name: entered(entries) for name, entries in JUNCTION.items()}) + "file RUN\n" + script


def quiet_junction():
    """1,000,000 minor cycles of a junction in which nothing happens."""
    return junction(f"cycle {CYCLES} .\n")


def trains():
    """1,000,000 minor cycles of a junction over which trains pass all the time, each in 512, and how many trains these are."""
    train = "panel 0 Q1 . cycle 256 . occupy T2 . cycle 64 . occupy T3 . clear T2 . cycle 128 . clear T3 . cycle 64 .\n"
    count = (CYCLES - 64) // 512
    return junction("cycle 64 .\n" + train * count), count


def unwired():
    """As many tracks as the input can declare, none of them wired, and how many faults these are."""
    count = (LIMIT - len(layout({}))) // len("TAAAA.")
    return layout({"TCS": "".join(f"{name}." for name in names("T", count, 5))}), count


def processor_time():
    """The processor time of all programs that were run so far, in seconds."""
    used = resource.getrusage(resource.RUSAGE_CHILDREN)
    return used.ru_utime + used.ru_stime


def measured(program, source, output, want):
    """The least processor time of some runs and their middle time by the clock, in seconds, and the most memory in bytes.

    Each run ends with the wanted status.
    """
    times, clock, most = [], [], 0
    said = output + ".most"
    timer = shutil.which("time")
    words = [timer, "-f", "%M", "-o", said, program, "run"] if timer else [program, "run"]
    for _ in range(RUNS):
        with open(source, "rb") as given, open(output, "wb") as taken:
            used, begun = processor_time(), time.perf_counter()
            status = subprocess.run(words, stdin=given, stdout=taken).returncode
            times.append(processor_time() - used)
            clock.append(time.perf_counter() - begun)
        if status != want:
            sys.exit(f"bench: status {status} for {source}, and {want} was expected")
        if timer:
            # Before the figure, `time` tells a status that isn't 0.
            with open(said) as it:
                most = max(most, int(it.read().split()[-1]) * 1024)
    return min(times), statistics.median(clock), most


def taken_and_lines(output):
    """How many minor cycles took a request, and how many lines there are."""
    with open(output, "rb") as it:
        lines = it.read().splitlines()
    return sum(b" 0:" in line for line in lines), len(lines)


def faults_by_code(output):
    """How many lines each fault has, by its code."""
    with open(output, "rb") as it:
        return dict(collections.Counter(line.split()[2].decode() for line in it))


def report(what, count, unit, seconds, clock, most):
    memory = f"{most / 2**20:.1f} MiB at most" if most else "memory not measured (no `time`)"
    print(f"{what}: {seconds:.3f} s ({clock:.3f} s by the clock), {count / seconds / 1e6:.1f} million {unit} a second, {memory}")


def verdict(kept, by_the_clock):
    """Whether what is asked is kept, by the least processor time and by the middle time of the clock."""
    if kept and by_the_clock:
        return "kept"
    return f"{'kept' if kept else 'NOT KEPT'}, by the clock {'kept' if by_the_clock else 'NOT KEPT'}"


def report_time_asked(seconds, clock, most, asked):
    """Whether a run took the time asked of it."""
    print(f"  asked of it: at most {asked} s: {verdict(seconds <= asked, clock <= asked)}")


def report_asked(seconds, clock, most):
    """Whether a text was read and answered in the time and memory asked of it."""
    fits = most <= MEMORY_ASKED
    said = verdict(fits and seconds <= SECONDS_ASKED, fits and clock <= SECONDS_ASKED)
    unsaid = "" if most else " (the time alone)"
    print(f"  asked of it: at most {SECONDS_ASKED} s and {MEMORY_ASKED // 2**20} MiB: {said}{unsaid}")


def timed(program, room, name, made, want, status=0, count=taken_and_lines):
    """The figures of a program on an input, once its status and what it wrote are as wanted."""
    source, output = os.path.join(room, name), os.path.join(room, name + ".out")
    with open(source, "w") as it:
        it.write(made)
    figures = measured(program, source, output, status)
    got = count(output)
    if got != want:
        sys.exit(f"bench: {name} wrote {got}, and {want} was expected")
    return figures


def main():
    program = os.path.abspath(sys.argv[1])
    print(f"{os.cpu_count()} cores; the least processor time of {RUNS} runs, and the middle time by the clock; output into a file")
    with tempfile.TemporaryDirectory(prefix="ssi-bench-") as room:
        made, lines = idle()
        figures = timed(program, room, "idle", made, (0, lines))
        report("1,000,000 idle minor cycles", lines, "cycles", *figures)
        made, lines, puts = busy()
        figures = timed(program, room, "busy", made, (puts, lines))
        report(f"900,000 minor cycles, {puts:,} with a request of six items", lines, "cycles", *figures)
        figures = timed(program, room, "quiet", quiet_junction(), (0, CYCLES))
        report("1,000,000 minor cycles of a junction at rest", CYCLES, "cycles", *figures)
        report_time_asked(*figures, QUIET_ASKED)
        made, count = trains()
        figures = timed(program, room, "trains", made, (count, CYCLES))
        report(f"1,000,000 minor cycles of a junction, {count:,} trains", CYCLES, "cycles", *figures)
        report_time_asked(*figures, TRAINS_ASKED)
        figures = timed(program, room, "limits", limits(), (0, CYCLES))
        report("1,000,000 minor cycles of a layout with its limits filled", CYCLES, "cycles", *figures)
        made, lines = tests()
        seconds, clock, most = timed(program, room, "tests", made, (lines, lines))
        report("a condition of 1,000 tests, a million times", 1_000_000_000, "tests", seconds, clock, most)
        kept = verdict(*(1_000_000_000 / taken >= TESTS_ASKED for taken in (seconds, clock)))
        print(f"  asked of it: at least {TESTS_ASKED // 1_000_000} million tests a second: {kept}")
        made = entries()
        figures = timed(program, room, "entries", made, (0, 1))
        report(f"a text of {len(made):,} bytes", len(made), "bytes", *figures)
        made = commands()
        figures = timed(program, room, "commands", made, (0, 1))
        report(f"a text of {len(made):,} bytes, in commands of three", len(made), "bytes", *figures)
        made = filled()
        figures = timed(program, room, "filled", made, (0, 1))
        report(f"a text of {len(made):,} bytes, its limits filled", len(made), "bytes", *figures)
        report_asked(*figures)
        made = nested()
        figures = timed(program, room, "nested", made, (0, 1))
        report(f"a text of {len(made):,} bytes, its rules nested", len(made), "bytes", *figures)
        report_asked(*figures)
        made, count = unwired()
        faults = {"N8": TRACKS, "N11": count - TRACKS}
        figures = timed(program, room, "unwired", made, faults, 1, faults_by_code)
        report(f"a text of {len(made):,} bytes with {count:,} faults", len(made), "bytes", *figures)
        report_asked(*figures)


if __name__ == "__main__":
    main()
