#!/usr/bin/env python3
"""Makes the filings that are measured, each as a strip and as DIMACS text, always the same ones.

    bench/filings.py table FOLDER       the 23 filings of the first table
    bench/filings.py worst FOLDER       those made to have a slow start or a slow split
    bench/filings.py memory FOLDER      those where remembering subtrees pays, or doesn't, in other ways than above
    bench/filings.py growth FOLDER      the series for how cost grows
    bench/filings.py longest FOLDER     the series for how the longest split grows
    bench/filings.py settle FOLDER      those of the first table, and some for Settle only
    bench/filings.py list FOLDER        those for List, some with placements that stand in no group
    bench/filings.py cnf STRIP FILE     the DIMACS text of one strip

A filing is a number of placements and a list of groups of entries, +p or -p. But for List every placement stands in
some group. The names of the strips go to standard output.
"""
import os
import random
import sys

MOST_PLACEMENTS, MOST_GROUPS, MOST_ENTRIES = 256, 512, 2048


# Strips and DIMACS text

def strip(n, groups):
    out = bytearray(b"P") + n.to_bytes(2, "big")
    for group in groups:
        out += b"G"
        for e in group:
            out += (b"T" if e > 0 else b"L") + abs(e).to_bytes(2, "big")
        out += b"E"
    return bytes(out + b"Z")


def read_strip(data):
    """A good strip without its checks."""
    n, groups, i = 0, [], 0
    while i < len(data):
        mark, operand = chr(data[i]), int.from_bytes(data[i + 1:i + 3], "big")
        if mark == "P":
            n = operand
        elif mark == "G":
            groups.append([])
        elif mark in "TL":
            groups[-1].append(operand if mark == "T" else -operand)
        i += 3 if mark in "PTL" else 2 if mark == "C" else 1
    return n, groups


def dimacs(n, groups):
    """Each group one clause, and for each pair of its positions one of the two opposites: so an entry that stands twice
    is false, and one beside its opposite is no clash."""
    clauses = []
    for group in groups:
        clauses.append(group)
        for i, a in enumerate(group):
            clauses.extend((-a, -b) for b in group[i + 1:])
    lines = ["p cnf %d %d" % (n, len(clauses))]
    lines += [" ".join(map(str, list(c) + [0])) for c in clauses]
    return "\n".join(lines) + "\n"


# Placements by name, counted in the order in which they are first asked for

class Namer:
    def __init__(self):
        self.number = {}

    def __call__(self, *name):
        return self.number.setdefault(name, len(self.number) + 1)

    def filing(self, groups):
        return len(self.number), groups


# Random filings

def dealt(n, groups, size, negative, seed):
    """Each placement stands about equally often, never twice in a group; a part of the entries is left out."""
    r = random.Random(seed)
    while True:
        deck = [p for _ in range(groups * size // n + 1) for p in r.sample(range(1, n + 1), n)][:groups * size]
        hands = [deck[i * size:i * size + size] for i in range(groups)]
        if all(len(set(h)) == size for h in hands):
            return n, [[-p if r.random() < negative else p for p in h] for h in hands]
        for h in hands:  # a doubled card is changed with one of another hand
            for i, p in enumerate(h):
                while p in h[:i]:
                    other = hands[r.randrange(groups)]
                    j = r.randrange(size)
                    if p not in other and other[j] not in h:
                        h[i], other[j] = other[j], p
                        p = h[i]
        if all(len(set(h)) == size for h in hands):
            return n, [[-p if r.random() < negative else p for p in h] for h in hands]


def planted(n, groups, size, seed):
    """Random groups with one of few placements each, so that taking these is a layout."""
    r = random.Random(seed)
    few = n // size
    chosen, others = list(range(1, few + 1)), list(range(few + 1, n + 1))
    number = [0] + r.sample(range(1, n + 1), n)
    _, hands = dealt(len(others), groups, size - 1, 0, seed)
    out = []
    for i, h in enumerate(hands):
        group = [chosen[i % few]] + [others[p - 1] for p in h]
        out.append([number[p] for p in r.sample(group, size)])
    return n, out


def repeated(times, filing):
    n, groups = filing
    return n, [g for g in groups for _ in range(times)]


# Filings with a meaning

def figures(count, slots, choices, seed):
    """Figures of one or two slots on a page, each with a few places; a slot may stay empty."""
    r, name = random.Random(seed), Namer()
    figure, slot = [], [[] for _ in range(slots)]
    for f in range(count):
        length = 1 if f % 3 else 2
        figure.append([])
        for at in sorted(r.sample(range(slots - length + 1), choices)):
            p = name("figure", f, at)
            figure[f].append(p)
            for s in range(at, at + length):
                slot[s].append(p)
    for s in range(slots):
        slot[s].append(name("empty", s))
    return name.filing(figure + slot)


def dominoes(rows, columns, missing):
    """Dominoes on a board without some squares."""
    name, cell = Namer(), {(y, x): [] for y in range(rows) for x in range(columns) if (y, x) not in missing}
    for y, x in sorted(cell):
        for other in ((y, x + 1), (y + 1, x)):
            if other in cell:
                p = name(y, x, other)
                cell[y, x].append(p)
                cell[other].append(p)
    return name.filing(list(cell.values()))


def pigeons(count, holes):
    """Each pigeon in a hole, each hole with one pigeon or empty."""
    name = Namer()
    groups = [[name(i, j) for j in range(holes)] for i in range(count)]
    groups += [[name(i, j) for i in range(count)] + [name("empty", j)] for j in range(holes)]
    return name.filing(groups)


def symmetric_latin(size):
    """Symmetric latin squares with every sign once on the diagonal: none of even size."""
    name = Namer()

    def cell(i, j, sign):
        return name(min(i, j), max(i, j), sign)

    signs = range(size)
    groups = [[cell(i, j, s) for s in signs] for i in signs for j in range(i, size)]
    groups += [[cell(i, j, s) for j in signs] for i in signs for s in signs]
    groups += [[cell(i, i, s) for i in signs] for s in signs]
    return name.filing(groups)


def zipped(count, holes, length):
    """Pigeons whose placements, left out, tie two others, which makes rule 7 or rule 8 fit two groups: to the limit of
    placements."""
    n, groups = pigeons(count, holes)
    by_pair = True
    for v in range(count * holes, 0, -1):
        if n + (length + 3 if by_pair else 8) > MOST_PLACEMENTS:
            break
        if by_pair:  # x = -y, and the long pair's common placements become false
            x, y, extra, common = n + 1, n + 2, n + 3, list(range(n + 4, n + 4 + length))
            groups += [[v, x, y], common + [x, extra], common + [y]]
            n += length + 3
        else:  # a = -b, c = -d, and then a = -c
            a, b, c, d, e, f = range(n + 1, n + 7)
            groups += [[v, a, b], [v, c, d], [a, c, e], [b, d, f]]
            n += 6
        by_pair = not by_pair
    return n, groups


def pentominoes(letters, rows, columns):
    """Some pentominoes, each once, on a board of five squares for each."""
    shapes = {"F": "011 110 010", "I": "11111", "L": "1111 1000", "N": "1110 0011", "P": "111 110",
              "T": "111 010 010", "U": "101 111", "V": "100 100 111",
              "W": "100 110 011", "X": "010 111 010", "Y": "1111 0100", "Z": "110 010 011"}
    name, cell, piece = Namer(), {(y, x): [] for y in range(rows) for x in range(columns)}, []
    for letter in letters:
        squares = {(y, x) for y, row in enumerate(shapes[letter].split()) for x, c in enumerate(row) if c == "1"}
        turned = set()
        for _ in range(4):
            squares = {(x, -y) for y, x in squares}
            for flip in (squares, {(y, -x) for y, x in squares}):
                top, left = min(y for y, _ in flip), min(x for _, x in flip)
                turned.add(tuple(sorted((y - top, x - left) for y, x in flip)))
        piece.append([])
        for shape in sorted(turned):
            for dy in range(rows):
                for dx in range(columns):
                    here = [(y + dy, x + dx) for y, x in shape]
                    if all(c in cell for c in here):
                        p = name(letter, tuple(here))
                        piece[-1].append(p)
                        for c in here:
                            cell[c].append(p)
    return name.filing(piece + list(cell.values()))


def queens(size):
    """A queen in each row and column, at most one in a diagonal."""
    name, side = Namer(), range(size)
    groups = [[name(y, x) for x in side] for y in side]
    groups += [[name(y, x) for y in side] for x in side]
    lines = [[(y, x) for y in side for x in side if x - y == d] for d in range(2 - size, size - 1)]
    lines += [[(y, x) for y in side for x in side if x + y == s] for s in range(1, 2 * size - 2)]
    groups += [[name(*c) for c in line] + [name("no queen", tuple(line))] for line in lines]
    return name.filing(groups)


def torus_queens(size):
    """A queen in each row, column and diagonal of a board whose edges meet: none where 2 or 3 divides the size."""
    name, side = Namer(), range(size)
    groups = [[name(y, x) for x in side] for y in side]
    groups += [[name(y, x) for y in side] for x in side]
    groups += [[name(y, (y + d) % size) for y in side] for d in side]
    groups += [[name(y, (d - y) % size) for y in side] for d in side]
    return name.filing(groups)


def langford(pairs):
    """Two of each number k, with k others in between: only where `pairs` leaves 0 or 3 divided by 4."""
    name, slot, number = Namer(), [[] for _ in range(2 * pairs)], []
    for k in range(pairs, 0, -1):
        number.append([])
        for at in range(2 * pairs - k - 1):
            p = name(k, at)
            number[-1].append(p)
            slot[at].append(p)
            slot[at + k + 1].append(p)
    return name.filing(number + slot)


def latin(size, given, seed):
    """A latin square with some cells given, drawn from one that exists."""
    r, name, side = random.Random(seed), Namer(), range(size)
    rows, columns, signs = (r.sample(side, size) for _ in range(3))
    groups = [[name(y, x, s) for s in side] for y in side for x in side]
    groups += [[name(y, x, s) for x in side] for y in side for s in side]
    groups += [[name(y, x, s) for y in side] for x in side for s in side]
    for y, x in r.sample([(y, x) for y in side for x in side], given):
        groups.append([name(y, x, signs[(rows[y] + columns[x]) % size])])
    return name.filing(groups)


# Worst cases

def chain():
    """Rule 7 fits 250 times, always the last pair of 512 groups."""
    common = list(range(4, 254))
    return 256, [[1, 2, 3]] * 510 + [common + [254, 255], common + [-254, 256]]


def doubled(name, count):
    """Groups that double the tree: a left out ties b and c, a taken settles them."""
    return [[name("a", i), name("b", i), name("c", i)] for i in range(count)]


def core(name):
    """Four pigeons in three holes: no layout, and settling alone doesn't see it."""
    groups = [[name("pigeon", i, j) for j in range(3)] for i in range(4)]
    return groups + [[name("pigeon", i, j) for i in range(4)] + [name("empty", j)] for j in range(3)]


def armed(doublings, switches, length, padding):
    """Such chains again and again: each switch, left out, makes rule 7 fit a long pair, to its end a dead end."""
    name = Namer()
    groups = doubled(name, doublings)
    for s in range(switches):
        groups.append([name("switch", s), name("x", s), name("y", s)])
    for s in range(switches):
        common = [name("common", i) for i in range(length)]
        groups += [common + [name("x", s)], common + [name("y", s)]]
    groups += core(name)
    groups += [[name("pad", i) for i in range(3)]] * padding
    return name.filing(groups)


def one_class(doublings, ties, others):
    """A switch, left out, makes rule 8 fit pair after pair: each tie brings one more placement to a class that stands
    in nearly every group."""
    name = Namer()
    groups = doubled(name, doublings)
    r, opposite = name("r"), name("opposite")
    if doublings:
        groups.append([name("switch"), r, opposite])
    else:
        groups.append([r, opposite])
    for i in range(ties):
        q = name("q", i)
        groups += [[r, q, name("first", i % 8)], [opposite, -q, name("second", i % 8)]]
    for i in range(others):
        groups.append([r, name("u", i % 41), name("v", i % 43)])
    if doublings:
        groups += core(name)
    return name.filing(groups)


def waiting(ties, first, clashing):
    """Rule 8 fits each of the first groups with each of the second, but rule 7 comes first, at the last pair, a step
    for each of many ties that touch them."""
    name = Namer()
    a, b, t, p, q = (name(letter) for letter in "abtpq")
    common, tied = ([name(letter, i) for i in range(ties)] for letter in "cx")
    second = MOST_GROUPS - 2 - ties - first
    groups = [[-e if clashing else name("v"), a, b] for e in tied + [t] * (first - ties)]
    groups += [[e, -a, -b] for e in tied + [t] * (second - ties)]
    groups += [[c, -x, t] for c, x in zip(common, tied)]
    groups += [common + [p, q], common + [-p, t]]
    for i in range(MOST_ENTRIES - sum(map(len, groups))):
        groups[first + i % second].insert(0, name("long", i // second))
    return name.filing(groups)


def released(classes, size):
    """Rule 8 fits the last pair and a placement is left out; then rule 6 ties every class, one placement after the
    other, to its first, and all other groups hold them."""
    name = Namer()
    member = [[name("class", j, i) for i in range(size)] for j in range(classes)]
    c, x, y, d = (name(letter) for letter in "cxyd")
    ties = [[c, first, -other] for first, *others in member for other in others]
    groups = [[of[(7 * k + 3 * j) % size] for j, of in enumerate(member)] for k in range(MOST_GROUPS - 2 - len(ties))]
    return name.filing(groups + ties + [[x, y, c], [-x, -y, d]])


def moved(by, groups):
    """The same with placements that are `by` higher."""
    return [[e + by if e > 0 else e - by for e in g] for g in groups]


def below_free(count, filing):
    """A filing's placements after some that stand in no group: each of these doubles List's tree."""
    n, groups = filing
    return n + count, moved(count, groups)


def after(*filings):
    """Filings that share no placement, one after the other: what the last costs is paid for each layout of those
    before."""
    n, groups = 0, []
    for more, added in filings:
        groups += moved(n, added)
        n += more
    return n, groups


def falling(chains, length, others, switched=True):
    """Rule 7 and rule 6 by turns. A switch, left out, ties q to the opposite of r; then the long group lets a fall, and
    that ties the next q to r, with which the long group lets the next a fall. All other groups hold r, of each chain
    where there are some."""
    name = Namer()
    switch = [name("switch")] if switched else []
    u, v = name("u"), name("v")
    root = [name("r", k) for k in range(chains)]
    groups, last = [], []
    for k, r in enumerate(root):
        a, q = ([name(letter, k, i) for i in range(length)] for letter in "aq")
        groups += [switch + [r, q[0]]] + [[q[i], a[i], u, v] for i in range(length)]
        groups += [[a[i], r, q[i + 1]] for i in range(length - 1)]
        last.append([r] + a + [name("c", k)])
    rest = [name("rest", i) for i in range(4 - chains)]
    return name.filing(groups + [root + rest] * others + last)


def joined(classes, half, size, switched=True):
    """A switch, left out, ties the placements that all groups of one half hold to those that all of the other hold:
    every two of the two halves are new pairs, in each class, and none of them fits."""
    name = Namer()
    switch = [name("switch")] if switched else []
    first, second = ([name(letter, k) for k in range(classes)] for letter in "qr")
    groups = [switch + [q, -r] for q, r in zip(first, second)]
    for letter, held in (("x", first), ("y", second)):
        groups += [held + [name(letter, (i + j) % 40) for j in range(size - classes)] for i in range(half)]
    return name.filing(groups)


def scattered(classes, members, groups, rest, switched=True):
    """Every group holds one member of each class, and a switch, or the start, ties all members of all classes."""
    name = Namer()
    switch = [name("switch")] if switched else []
    member = [[name("class", j, i) for i in range(members)] for j in range(classes)]
    made = [switch + [first, -other] for first, *others in member for other in others]
    for k in range(groups):
        held = [of[(k + 3 * j) % members] for j, of in enumerate(member)]
        made.append(held + [name("rest", (k + i) % 17) for i in range(rest)])
    return name.filing(made)


def sinking(count, switched=True):
    """A switch, left out, ties neighbours by rule 6, the highest first: with each tie the whole class gets a new, lower
    root."""
    name = Namer()
    switch = [name("switch")] if switched else []
    place = [name("place", i) for i in range(count)]
    return name.filing([switch + [place[i], place[i - 1]] for i in range(count - 1, 0, -1)])


def mixed(half, size, switched):
    """Of the half that is tied every other group holds the placement left out, and the others share one with the other
    half: each group of that may meet, by what two groups hold, and none does."""
    name = Namer()
    switch = [name("switch")] if switched else []
    r, q, common, apart = name("r"), name("q"), name("common"), name("apart")
    groups = [switch + [q, -r]]
    for i in range(half):
        groups.append(([q, common] if i % 2 else [-q, apart]) + [name(i % 2, (i + j) % 40) for j in range(size - 2)])
        groups.append([r, common] + [name("y", (i + j) % 40) for j in range(size - 2)])
    return name.filing(groups)


def sides(half, size, switched, swapped, near, far):
    """Two halves of groups, each with one of two placements that are tied: `near` and `far` begin the i-th, given it."""
    name = Namer()
    switch = [name("switch")] if switched else []
    r, q = name("r"), name("q")
    groups = [switch + [q, -r]]
    tied = (r, q) if swapped else (q, r)
    for i in range(half):
        for side, begin, held in (("near", near, tied[0]), ("far", far, tied[1])):
            group = begin(name, held, i)
            groups.append(group + [name(side, (i + j) % 40) for j in range(size - len(group))])
    return name.filing(groups)


def late(half, size, switched, swapped):
    """Only the last group of the one half meets those of the other."""
    return sides(half, size, switched, swapped, lambda name, a, i: [a] + [-name("y")] * (i == half - 1),
                 lambda name, b, i: [b, name("y")])


def sunk(count, others, size, switched):
    """As sinking, with groups that hold the placements which are tied."""
    name = Namer()
    switch = [name("switch")] if switched else []
    place = [name("place", i) for i in range(count)]
    groups = [switch + [place[i], place[i - 1]] for i in range(count - 1, 0, -1)]
    for k in range(others):
        groups.append([place[(5 * k) % count]] + [name("rest", (k + j) % 50) for j in range(size)])
    return name.filing(groups)


def late_ties(ties, others):
    """A switch that no layout takes, left out, makes rule 8 fit pair after pair in one class, each found after all
    pairs of the groups before, and the last a dead end."""
    name = Namer()
    switch, r, opposite, *dead = (name(letter) for letter in "srodef")
    groups = [[switch, r, opposite], [switch] + dead, dead]
    groups += [[r] + [name("other", i) for i in range(3)]] * others
    groups += [[opposite, -name("q", i), name("second", i)] for i in range(ties)]
    groups += [[r, name("q", i), name("first", i)] for i in range(ties)]
    return name.filing(groups + [[name("q", ties - 1), r] + dead])


def counted(groups):
    """Placements counted anew, without those that stand in no group."""
    used = sorted({abs(e) for g in groups for e in g})
    number = {p: i + 1 for i, p in enumerate(used)}
    return len(used), [[number[e] if e > 0 else -number[-e] for e in g] for g in groups]


def often(groups, n, times, shift):
    """Long groups in which every placement stands several times; each begins at another placement."""
    return counted([[1 + (p + g * shift) % n for p in range(n) for _ in range(times)] for g in range(groups)])


def one_long_group(size):
    """A split for every placement but two: the deepest tree there is."""
    return size, [list(range(1, size + 1))]


ALL = {
    "x3mix210": lambda: dealt(210, 140, 3, 0.5, 12),
    "x3mix252": lambda: dealt(252, 168, 3, 0.5, 1),
    "x3pos220": lambda: dealt(220, 160, 3, 0, 10),
    "x4pos240": lambda: dealt(240, 160, 4, 0, 7),
    "x6pos180": lambda: dealt(180, 90, 6, 0, 1),
    "x6pos210": lambda: dealt(210, 105, 6, 0, 5),
    "figs14": lambda: figures(14, 18, 8, 6),
    "domino8": lambda: dominoes(8, 8, {(0, 0), (7, 7)}),
    "pigeon10": lambda: pigeons(10, 9),
    "symlatin6": lambda: symmetric_latin(6),
    "zip78": lambda: zipped(8, 7, 9),
    "limits": lambda: repeated(2, planted(256, 256, 4, 4)),
    "limits8": lambda: planted(256, 256, 8, 1),
    "limits3x": lambda: repeated(3, dealt(255, 170, 4, 0, 11)),
    "pent5x5": lambda: pentominoes("LPXVI", 5, 5),
    "queens14": lambda: queens(14),
    "langford10": lambda: langford(10),
    "latin6": lambda: latin(6, 6, 9),
    "chain": chain,
    "armed": lambda: armed(9, 6, 80, 300),
    "ties": lambda: one_class(0, 80, 340),
    "tiesarmed": lambda: one_class(9, 60, 340),
    "long256": lambda: one_long_group(256),
}


# A start or a split that was, or could be, slow
WORST = {
    "falling": lambda: falling(1, 120, 271),
    "falling4": lambda: falling(4, 30, 268),
    "fallstart": lambda: falling(1, 120, 271, switched=False),
    "lateties": lambda: late_ties(80, 348),
    "joined3": lambda: joined(3, 250, 4),
    "joined30": lambda: joined(30, 31, 31),
    "joined80": lambda: joined(80, 11, 81),
    "joinstart": lambda: joined(3, 250, 4, switched=False),
    "scattered": lambda: scattered(4, 8, 483, 0),
    "sinking": lambda: sinking(255),
    "sinkstart": lambda: sinking(256, switched=False),
    "released": lambda: released(4, 60),
    "mixed": lambda: mixed(31, 32, 1),
    "late": lambda: late(24, 40, 1, 0),
    "sunk": lambda: sunk(189, 288, 4, 1),
    "doubled": lambda: often(1, 256, 8, 0),
}


# Subtrees that come again, or don't
MEMORY = {
    "x3mix255": lambda: dealt(255, 170, 3, 0.5, 64),
    "x4mix256": lambda: dealt(256, 104, 4, 0.5, 9),
    "x4pos256": lambda: dealt(256, 160, 4, 0, 2),
    "torus14": lambda: torus_queens(14),
    "domino6x13": lambda: dominoes(6, 13, {(0, 0), (5, 11)}),
    "appendix": lambda: after(dominoes(4, 6, set()), pigeons(7, 6)),
    "twins": lambda: after(*[pigeons(4, 4)] * 3, pigeons(6, 5)),
}


# Measured for Settle
SETTLED = {
    **ALL,
    "waiting": lambda: waiting(124, 250, False),
    "waitclash": lambda: waiting(124, 250, True),
    "released": WORST["released"],
}


# Measured for List
LISTED = {
    "free256": lambda: (256, []),
    "none256": lambda: (256, [[]]),
    "domino4x8": lambda: dominoes(4, 8, set()),
    "pigeon6": lambda: pigeons(6, 7),
    "queens9": lambda: queens(9),
    "x6pos180": ALL["x6pos180"],
    "limits": ALL["limits"],
    "core16": lambda: below_free(16, (4, [[1, 2, 3], [1, 2, 4], [1, 3, 4], [2, 3, 4]])),
    "lateties": lambda: below_free(2, late_ties(80, 348)),
}


def growth():
    """By placements; by groups, with one tree at different lengths; by entries."""
    series = {}
    for n in range(64, 257, 32):
        series["n-%d" % n] = (lambda n=n: dealt(n, n // 2, 6, 0, n))
    for times in (1, 2, 3):
        series["groups-%d" % (160 * times)] = (lambda times=times: repeated(times, dealt(240, 160, 4, 0, 7)))
    for size in (12, 16, 24, 32):
        series["entries-%d" % (64 * size)] = (lambda size=size: dealt(256, 64, size, 0, size))
    return series


def longest():
    """The worst filings at some sizes; joined also by classes, with as many groups as the limits allow."""
    series = {}
    for length in (15, 30, 60, 120):
        series["falling-%d" % length] = lambda k=length: falling(1, k, 271 * k // 120)
    for length in (4, 8, 15, 30):
        series["falling4-%d" % length] = lambda k=length: falling(4, k, 268 * k // 30)
    for ties in (10, 20, 40, 80):
        series["lateties-%d" % ties] = lambda k=ties: late_ties(k, 348 * k // 80)
    for half in (32, 63, 125, 250):
        series["joined3-%d" % half] = lambda k=half: joined(3, k, 4)
    for classes in (3, 8, 15, 30, 80):
        half = min(250, (MOST_ENTRIES - 3 * classes) // (2 * classes + 2))
        series["joined-%d" % classes] = lambda k=classes, half=half: joined(k, half, k + 1)
    for groups in (60, 120, 241, 483):
        series["scattered-%d" % groups] = lambda k=groups: scattered(4, 8, k, 0)
    for count in (32, 64, 128, 255):
        series["sinking-%d" % count] = lambda k=count: sinking(k)
    for size in (8, 15, 30, 60):
        series["released-%d" % size] = lambda k=size: released(4, k)
    return series


def check(name, n, groups, all_named):
    entries = [e for g in groups for e in g]
    within = n <= MOST_PLACEMENTS and len(groups) <= MOST_GROUPS and len(entries) <= MOST_ENTRIES
    assert within, name + ": over the limits"
    named = set(map(abs, entries))
    assert not all_named or named == set(range(1, n + 1)), name + ": a placement stands in no group"


def write(folder, filings, all_named=True):
    os.makedirs(folder, exist_ok=True)
    for name, make in filings.items():
        n, groups = make()
        check(name, n, groups, all_named)
        path = os.path.join(folder, name)
        with open(path + ".strip", "wb") as out:
            out.write(strip(n, groups))
        with open(path + ".cnf", "w") as out:
            out.write(dimacs(n, groups))
        print(path + ".strip")


def main(words):
    made = {"table": ALL, "worst": WORST, "memory": MEMORY, "growth": growth(), "longest": longest(),
            "settle": SETTLED, "list": LISTED}
    if len(words) == 3 and words[0] == "cnf":
        with open(words[1], "rb") as given, open(words[2], "w") as out:
            out.write(dimacs(*read_strip(given.read())))
    elif len(words) == 2 and words[0] in made:
        write(words[1], made[words[0]], all_named=words[0] != "list")
    else:
        sys.exit(__doc__)


if __name__ == "__main__":
    main(sys.argv[1:])
