#!/usr/bin/env python3
"""Looks for tables within the limits on which the start of a search or one split is slow, by itself or beside the
independent search. For bench/run.sh --worst, which builds what measures them (target/bench/longest).

    bench/worst.py [--tables N] [--seed N] [--program PROGRAM] [--least MICROSECONDS]

Each family makes tables from a few numbers: how many classes, parts, groups, entries, links of a chain. Of each the
numbers that gave the slowest table so far are changed a little, or drawn anew. Printed is, for each family, the table
with the longest start or split, and the one that took most times the independent search's time among those over the
least microseconds. Their strips stay in target/bench/strips/found.
"""
import argparse
import os
import random

import filings
import table

FOUND = "target/bench/strips/found"
BATCH = 8


# Families: the bounds of their numbers, and the table

def crossed(classes, half, rest, switched):
    """As filings.joined, but each group holds one class, and the halves hold opposites of it, so that every new pair
    has an entry that crosses and no other one in common."""
    name = filings.Namer()
    switch = [name("switch")] if switched else []
    first, second = ([name(letter, k) for k in range(classes)] for letter in "qr")
    made = [switch + [q, -r] for q, r in zip(first, second)]
    for side, held in enumerate((first, second)):
        for i in range(half):
            mine = [held[i % classes]]
            made.append([-e if side else e for e in mine] + [name(side, (i + j) % 40) for j in range(rest)])
    return name.filing(made)


def crosswise(half, size, switched, swapped):
    """Only the last group of either half meets those of the other."""
    def hold(mine, other):
        return lambda name, tied, i: [tied, -name(other) if i == half - 1 else name(mine)]
    return filings.sides(half, size, switched, swapped, hold("z", "y"), hold("y", "z"))


def matched(half, size, switched, swapped):
    """Each group meets just one of the other half, which holds the opposite of what is tied."""
    return filings.sides(half, size, switched, swapped, lambda name, a, i: [a, name("y", i)],
                         lambda name, b, i: [-b, name("y", i)])


def tied_at_random(n, groups, size, ties, seed):
    """Random groups, all taken, and ties by one switch."""
    r = random.Random(seed)
    made = [[1, q, -t if r.random() < 0.5 else t] for q, t in (r.sample(range(2, n + 1), 2) for _ in range(ties))]
    made += [r.sample(range(2, n + 1), min(size, n - 1)) for _ in range(groups)]
    return filings.counted(made)


BOTH = (0, 1)
FAMILIES = {
    "falling": (filings.falling, [(1, 4), (2, 125), (1, 400), BOTH]),
    "lateties": (filings.late_ties, [(1, 120), (1, 500)]),
    "joined": (filings.joined, [(1, 125), (1, 255), (3, 130), BOTH]),
    "scattered": (filings.scattered, [(1, 125), (2, 120), (1, 511), (0, 6), BOTH]),
    "crossed": (crossed, [(1, 60), (1, 255), (2, 20), BOTH]),
    "mixed": (filings.mixed, [(2, 255), (3, 130), BOTH]),
    "late": (filings.late, [(2, 255), (4, 130), BOTH, BOTH]),
    "crosswise": (crosswise, [(2, 255), (4, 130), BOTH, BOTH]),
    "matched": (matched, [(2, 100), (4, 130), BOTH, BOTH]),
    "sunk": (filings.sunk, [(2, 255), (1, 400), (2, 12), BOTH]),
    "doubled": (filings.often, [(1, 40), (2, 256), (1, 10), (0, 5)]),
    "released": (filings.released, [(1, 60), (2, 120)]),
    "ties": (filings.one_class, [(0, 3), (1, 120), (1, 480)]),
    "waiting": (filings.waiting, [(1, 124), (1, 300), BOTH]),
    "armed": (filings.armed, [(0, 3), (1, 8), (1, 120), (0, 480)]),
    "random": (tied_at_random, [(6, 256), (1, 500), (3, 60), (1, 250), (1, 99)]),
}


# The search

def made(family, numbers):
    """The table, or None where it isn't within the limits or names not all."""
    try:
        n, groups = FAMILIES[family][0](*numbers)
        filings.check(family, n, groups, True)
        return n, groups
    except (AssertionError, IndexError, ValueError, ZeroDivisionError):
        return None


def drawn(bounds, best, r):
    """Numbers within the bounds: anew, or the best ones with some of them changed."""
    if best is None or r.random() < 0.3:
        return [r.randint(*b) for b in bounds]
    out = list(best)
    for i in r.sample(range(len(out)), r.randint(1, min(3, len(out)))):
        low, high = bounds[i]
        far = max(1, round((high - low) * r.choice((0.02, 0.1, 0.3))))
        out[i] = min(high, max(low, out[i] + r.randint(-far, far)))
    return out


def next_table(family, best, r):
    for _ in range(3000):
        numbers = drawn(FAMILIES[family][1], best, r)
        filing = made(family, numbers)
        if filing is not None:
            return numbers, filing
    return None


def slowest(row):
    """The longest of start and split, and the worst of both to the independent search, with the seconds it took; the
    clock tells no differences under a microsecond."""
    pairs = [row["start"], row["split"]]
    return max(p[0] for p in pairs), max(((p[0] / max(p[1], 1e-6), p[0]) for p in pairs))


def middle(row, program):
    """A split's time is the difference of two calls', so a measurement may be off: of five the middle one by ratio."""
    rows = [row] + [list(table.longest_rows([row["strip"]], program))[0] for _ in range(4)]
    return sorted(rows, key=lambda r: slowest(r)[1])[2]


class Best:
    """The slowest tables of one family, by time and by ratio."""

    def __init__(self):
        self.time, self.ratio = (0, None, None), (0, None, None)

    def take(self, row, numbers, options):
        longest, (times, seconds) = slowest(row)
        if longest > self.time[0] or seconds > options.least * 1e-6 and times > self.ratio[0]:
            row = middle(row, options.program)
            longest, (times, seconds) = slowest(row)
        if longest > self.time[0]:
            self.time = (longest, numbers, row)
        if seconds > options.least * 1e-6 and times > self.ratio[0]:
            self.ratio = (times, numbers, row)

    def numbers(self, r):
        return r.choice([self.time[1], self.ratio[1]])


def look(options):
    r, best, tried = random.Random(options.seed), {family: Best() for family in FAMILIES}, 0
    while tried < options.tables:
        batch = []
        for family in r.choices(list(FAMILIES), k=BATCH):
            found = next_table(family, best[family].numbers(r), r)
            if found is None:
                continue
            path = os.path.join(FOUND, "%s-%s.strip" % (family, "-".join(map(str, found[0]))))
            with open(path, "wb") as out:
                out.write(filings.strip(*found[1]))
            batch.append((family, found[0], path))
        for (family, numbers, _), row in zip(batch, table.longest_rows([b[2] for b in batch], options.program)):
            best[family].take(row, numbers, options)
            tried += 1
        keep = {b[2]["strip"] for found in best.values() for b in (found.time, found.ratio) if b[2]}
        for _, _, path in batch:
            if path not in keep and os.path.exists(path):
                os.remove(path)
    return best


def show(best):
    table.longest_head()
    for found in best.values():
        rows = {row["strip"]: row for _, _, row in (found.time, found.ratio) if row}
        for row in rows.values():
            table.print_line(table.longest_cells(row))
    rows = [b[2] for found in best.values() for b in (found.time, found.ratio) if b[2]]
    longest = max(rows, key=lambda row: slowest(row)[0])
    ratios = [(found.ratio[0], found.ratio[2]["name"]) for found in best.values() if found.ratio[2]]
    print("\nThe longest start or split: %s, %.3f milliseconds." % (longest["name"], 1e3 * slowest(longest)[0]))
    if ratios:
        print("The most times the independent search's time: %s, %.1f." % max(ratios)[::-1])


def main():
    parser = argparse.ArgumentParser(description=__doc__, formatter_class=argparse.RawDescriptionHelpFormatter)
    parser.add_argument("--tables", type=int, default=600, help="how many are measured")
    parser.add_argument("--seed", type=int, default=1)
    parser.add_argument("--least", type=float, default=30, help="microseconds from which a ratio counts")
    parser.add_argument("--program", default=table.BENCH + "/longest", help="what measures, another longest.cpp")
    options = parser.parse_args()
    os.makedirs(FOUND, exist_ok=True)
    show(look(options))


if __name__ == "__main__":
    main()
