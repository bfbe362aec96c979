#!/usr/bin/env python3
"""The picture docs/speed.svg: whole runs of the layout program beside the solvers, a row for each filing, sorted by
library to best solver.

    bench/picture.py bench/figures.json docs/speed.svg    draws what bench/run.sh measured last, without measuring

bench/table.py writes both files, so that picture, figures and the table of docs/SPEED.md are of one run.
"""
import datetime
import json
import math
import subprocess
import sys

SOLVERS = {"minisat": "#31688e", "cadical": "#2a9d6a", "clasp": "#7a6a9a"}
LIBRARY, INDEPENDENT, GREY, FAINT = "#b3261e", "#d9902f", "#555", "#e4e4e4"
NAMES = {
    "x3mix210": "random groups of 3 entries, of both signs",
    "x3mix252": "random groups of 3 entries, of both signs",
    "x3pos220": "random groups of 3 entries, all taken",
    "x4pos240": "random groups of 4 entries, all taken",
    "x6pos180": "random groups of 6 entries, all taken",
    "x6pos210": "random groups of 6 entries, all taken",
    "figs14": "14 figures, 8 places each, a page of 18 slots",
    "domino8": "dominoes, 8 by 8 without two opposite corners",
    "pigeon10": "ten pigeons, nine holes",
    "symlatin6": "a symmetric latin square of size 6",
    "zip78": "eight pigeons, seven holes, by ties",
    "limits": "512 groups of 4 entries, each twice",
    "limits8": "256 groups of 8 entries",
    "limits3x": "random groups of 4 entries, each three times",
    "pent5x5": "five pentominoes on 5 by 5",
    "queens14": "14 queens",
    "langford10": "Langford's numbers up to 10",
    "latin6": "a latin square of size 6",
    "chain": "rule 7 fits 250 times at one pair",
    "armed": "six switches, each arms 80 steps of rule 7",
    "ties": "80 ties by rule 8 in one class",
    "tiesarmed": "a switch that arms 60 ties by rule 8",
    "long256": "one group of 256 entries, 254 splits deep",
}

WIDTH, LABELS, RIGHT, TOP, ROW, FOOT = 1000, 335, 185, 122, 31, 74
PLOT = WIDTH - LABELS - RIGHT
FASTEST = 0.0004
EVEN = 1.05


# Figures

def stamp():
    """When and at which commit something was measured."""
    words = ["git", "describe", "--always", "--dirty", "--exclude=*"]
    commit = subprocess.run(words, stdout=subprocess.PIPE, stderr=subprocess.DEVNULL, text=True, check=False).stdout
    return "%s, commit %s" % (datetime.date.today().isoformat(), commit.strip() or "unknown")


def figures(rows, outcomes, limit):
    """What the picture needs of the table's rows; seconds are None where a program still ran at the limit."""
    filings = [{"name": row["name"], "outcome": outcomes[row["number"]], "seconds": row["whole"]} for row in rows]
    return {"measured": stamp(), "limit": limit, "filings": filings}


def save(run, figures_path, picture_path):
    with open(figures_path, "w") as out:
        json.dump(run, out, indent=1)
        out.write("\n")
    with open(picture_path, "w") as out:
        out.write(drawn(run))


def best_solver(filing):
    """Name and seconds of the first solver to answer; past the limit if none did."""
    seconds = {name: filing["seconds"][name] for name in SOLVERS if filing["seconds"][name] is not None}
    name = min(seconds, key=seconds.get) if seconds else None
    return name, seconds.get(name)


def ratio(filing, limit):
    """Library to best solver; below 1 the library is ahead."""
    return (filing["seconds"]["library"] or limit) / (best_solver(filing)[1] or limit)


def verdict(filing, limit):
    """Who is ahead, and how many times."""
    r, solver = ratio(filing, limit), best_solver(filing)[0]
    times = max(r, 1 / r)
    if times < EVEN:
        return "about even"
    words = "%.0f" % times if times >= 10 else "%.1f" % times
    return "%s, %s times faster" % ("library" if r < 1 else solver, words)


# Drawing

def text(x, y, words, more=""):
    words = words.replace("&", "&amp;").replace("<", "&lt;")
    return '<text x="%.1f" y="%.1f"%s>%s</text>' % (x, y, more, words)


def line(x, y, to_x, to_y, colour, width=1.0):
    return '<path d="M%.1f %.1fL%.1f %.1f" stroke="%s" stroke-width="%g"/>' % (x, y, to_x, to_y, colour, width)


def dot(x, y, colour, size, filled=True):
    look = 'fill="%s"' % colour if filled else 'fill="white" stroke="%s" stroke-width="1.6"' % colour
    return '<circle cx="%.1f" cy="%.1f" r="%g" %s/>' % (x, y, size, look)


def diamond(x, y, colour):
    return '<path d="M%.1f %.1fl4 4l-4 4l-4 -4z" fill="none" stroke="%s" stroke-width="1.4"/>' % (x, y - 4, colour)


def legend():
    """The marks, on one line."""
    x, y = 30, 62
    yield dot(x, y, LIBRARY, 6)
    yield text(x + 11, y + 4, "layout program (the proved library)")
    x += 262
    for name, colour in SOLVERS.items():
        yield dot(x, y, colour, 4.5, False)
        yield text(x + 10, y + 4, name)
        x += 82
    yield diamond(x, y, INDEPENDENT)
    yield text(x + 10, y + 4, "independent search (the same tree, unproved C++)")


def scale(x, bottom, limit):
    """Lines and labels at the powers of ten."""
    for power in range(math.ceil(math.log10(FASTEST)), math.floor(math.log10(limit)) + 1):
        label = {-3: "1 ms", -2: "10 ms", -1: "0.1 s"}.get(power, "%d s" % 10 ** max(power, 0))
        at = x(10.0 ** power)
        yield line(at, TOP - 12, at, bottom, FAINT)
        yield text(at, TOP - 18, label, ' text-anchor="middle" fill="%s"' % GREY)


def marks(filing, x, y, limit):
    """The dots of one row, and a bar between library and best solver."""
    seconds = filing["seconds"]
    library, solver = x(seconds["library"] or limit), x(best_solver(filing)[1] or limit)
    ahead = ratio(filing, limit) < 1
    yield line(library, y, solver, y, "#f0c4c0" if ahead else "#c5d3dd", 7)
    yield diamond(x(seconds["independent"] or limit), y, INDEPENDENT)
    for name, colour in SOLVERS.items():
        yield dot(x(seconds[name] or limit), y, colour, 4.5, False)
    yield dot(library, y, LIBRARY, 6)


def row(filing, x, y, limit):
    """One filing: name, outcome and what it is; its marks; who is ahead."""
    yield text(24, y - 1, filing["name"], ' font-weight="bold"')
    yield text(LABELS - 18, y - 1, filing["outcome"], ' text-anchor="end" fill="%s"' % GREY)
    yield text(24, y + 11, NAMES.get(filing["name"], ""), ' font-size="10.5" fill="%s"' % GREY)
    yield from marks(filing, x, y, limit)
    colour = LIBRARY if ratio(filing, limit) < 1 else "#31688e"
    yield text(WIDTH - RIGHT + 22, y + 4, verdict(filing, limit), ' fill="%s"' % colour)


def drawn(run):
    """Whole runs on a scale of powers of ten."""
    limit, filings = run["limit"], sorted(run["filings"], key=lambda f: ratio(f, run["limit"]))
    bottom = TOP + ROW * len(filings)
    low, high = math.log10(FASTEST), math.log10(limit)
    ahead = sum(ratio(f, limit) < 1 for f in filings)

    def x(seconds):
        return LABELS + PLOT * (max(low, min(high, math.log10(seconds))) - low) / (high - low)

    out = ['<svg xmlns="http://www.w3.org/2000/svg" viewBox="0 0 %d %d" font-family="sans-serif" font-size="12">'
           % (WIDTH, bottom + FOOT), '<rect width="100%" height="100%" fill="white"/>']
    title = "The layout program answers before all three solvers on %d of %d filings" % (ahead, len(filings))
    out += [text(24, 32, title, ' font-size="17" font-weight="bold"'), *legend()]
    out += [text(24, TOP - 18, "filing", ' fill="%s"' % GREY)]
    out += [text(LABELS - 18, TOP - 18, "outcome", ' text-anchor="end" fill="%s"' % GREY)]
    out += [text(WIDTH - RIGHT + 22, TOP - 18, "first to answer", ' fill="%s"' % GREY), *scale(x, bottom, limit)]
    for i, filing in enumerate(filings):
        out += row(filing, x, TOP + ROW * i + ROW / 2, limit)
    parted = TOP + ROW * ahead + 1
    out.append('<path d="M24 %.1fH%d" stroke="%s" stroke-dasharray="3 3"/>' % (parted, WIDTH - 24, GREY))
    notes = ["Time from the start of a process to its end, on a scale of powers of ten; the bar is what lies between "
             "the library and the best solver.",
             "The solvers answer with some layout or none, the library with the first one, by document 01's tree.",
             "Measured %s, by bench/run.sh; figures in bench/figures.json." % run["measured"]]
    out += [text(24, bottom + 24 + 16 * i, words, ' fill="%s"' % GREY) for i, words in enumerate(notes)]
    return "\n".join(out + ["</svg>"]) + "\n"


def main():
    if len(sys.argv) != 3:
        sys.exit(__doc__)
    with open(sys.argv[1]) as given:
        run = json.load(given)
    with open(sys.argv[2], "w") as out:
        out.write(drawn(run))


if __name__ == "__main__":
    main()
