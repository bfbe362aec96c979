#!/usr/bin/env python3
"""One set as named text, as numbers and as a strip is answered alike: python3 alike.py PLATEWRIGHT [SETS]

Random sets from fixed seeds. Every command is asked in each kind, for JSON; the answers must be the same but for the
names, and the layouts, in the text too, those that trying every choice finds."""
import itertools
import json
import random
import subprocess
import sys

PROGRAM = sys.argv[1]
SETS = int(sys.argv[2]) if len(sys.argv) > 2 else 40
ALLOWANCE = ["--allowance", "12"]
TRIED_PLACEMENTS = 7
ROWS = 5


def random_set(seed):
    """n, and groups that together name every placement."""
    r = random.Random(seed)
    n = r.randint(1, 9)
    groups = [[r.choice([1, 1, -1]) * r.randint(1, n) for _ in range(r.randint(0 if seed % 9 == 0 else 1, 4))]
              for _ in range(r.randint(1, n))]
    named = {abs(entry) for group in groups for entry in group}
    for p in range(1, n + 1):
        if p not in named:
            r.choice(groups).append(r.choice([p, -p]))
    return n, groups


def names_of(seed, n):
    """Names of several looks, no one of which is a number."""
    chosen = random.Random(seed).choice(["f%d", "%d@1.%d", "Ä%d", "%dx", "a-%d"])
    return [chosen.replace("%d", str(p)) for p in range(1, n + 1)]


def as_names(names, groups):
    lines = [" ".join(("-" if e < 0 else "") + names[abs(e) - 1] for e in group) or "." for group in groups]
    return ("placements " + " ".join(names) + "\n" + "\n".join(lines) + "\n").encode()


def as_numbers(n, groups):
    return "\n".join([str(n)] + [" ".join(map(str, group + [0])) for group in groups]).encode()


def as_strip(n, groups):
    mark = {True: b"T", False: b"L"}
    body = b"".join(b"G" + b"".join(mark[e > 0] + abs(e).to_bytes(2, "big") for e in group) + b"E" for group in groups)
    return b"P" + n.to_bytes(2, "big") + body + b"Z"


def ask(words, data):
    ran = subprocess.run([PROGRAM] + words, input=data, capture_output=True, timeout=60)
    return ran.returncode, ran.stdout, ran.stderr


def numbered(value, names):
    """A JSON answer with placement numbers for names, and without what only a text has: its lines and quotes."""
    entries = {name: p for p, name in enumerate(names, 1)}
    entries.update({"-" + name: -p for p, name in enumerate(names, 1)})
    if isinstance(value, dict):
        return {key: numbered(v, names) for key, v in value.items() if key not in ("line", "quote")}
    if isinstance(value, list):
        return [numbered(v, names) for v in value]
    return entries.get(value, value) if isinstance(value, str) else value


def layouts_by_trying(n, groups):
    """All choices that meet every group, in document 01's order."""
    def met(choice):
        return all(sum(choice[abs(e) - 1] == (e > 0) for e in group) == 1 for group in groups)
    return [[p + 1 for p in range(n) if choice[p]] for choice in itertools.product([0, 1], repeat=n) if met(choice)]


def expect(holds, seed, what):
    if not holds:
        sys.exit(f"alike: seed {seed}: {what}")


def compare_kinds(seed, kinds, names, group):
    named_group = " ".join(("-" if e < 0 else "") + names[abs(e) - 1] for e in group)
    questions = [["check"], ["search"], ["search"] + ALLOWANCE, ["search", "--time", "0"],
                 ["list", "--rows", str(ROWS)], ["list"] + ALLOWANCE, ["list", "--count"],
                 ["settle"], ["preview", "--group"], ["save"], ["text", "--numbers"]]
    for words in questions:
        answers = []
        for kind, data in kinds.items():
            further = [named_group if kind == "names" else " ".join(map(str, group))] if words[0] == "preview" else []
            status, out, err = ask(words + further + ["--json"], data)
            answers.append((status, numbered(json.loads(out), names), err))
        expect(answers[0] == answers[1] == answers[2], seed, f"{words} differs: {answers}")


def compare_texts(seed, kinds, n, groups):
    """Text and strip come back."""
    for data in kinds.values():
        expect(ask(["save"], data)[1] == kinds["strip"], seed, "save")
        text = ask(["text"], data)[1]
        expect(ask(["text"], text)[1] == text, seed, "text of text")
        expect(ask(["save"], text)[1] == kinds["strip"], seed, "save of text")
    expect(ask(["text", "--numbers"], kinds["names"])[1].split() == kinds["numbers"].split(), seed, "text --numbers")


def compare_layouts(seed, data, names, n, groups):
    layouts = layouts_by_trying(n, groups)
    status, out, _ = ask(["search", "--json"], data)
    expect(status == (0 if layouts else 10), seed, "status of search")
    expect(not layouts or numbered(json.loads(out), names)["taken"] == layouts[0], seed, "the first layout")
    listed = numbered(json.loads(ask(["list", "--rows", str(ROWS), "--json"], data)[1]), names)
    expect(listed.get("layouts", []) == layouts[:ROWS], seed, "the layouts")
    expect(listed.get("more", False) == (len(layouts) > ROWS), seed, "more")
    counted = ask(["list", "--count"], data)[1].decode().split("\n")
    expect(f"layouts {len(layouts)}" in counted, seed, "the number of layouts")
    lines = ask(["list", "--rows", str(ROWS)], data)[1].decode().split("\n")
    taken = [" ".join(["taken"] + [names[p - 1] for p in row]) for row in layouts[:ROWS]]
    expect([line for line in lines if line.startswith("taken")] == taken, seed, "the names that are taken")
    return len(layouts)


def main():
    tried = found = 0
    for seed in range(SETS):
        n, groups = random_set(seed)
        names = names_of(seed, n)
        kinds = {"names": as_names(names, groups), "numbers": as_numbers(n, groups), "strip": as_strip(n, groups)}
        compare_kinds(seed, kinds, names, random.Random(-seed).choice(groups))
        compare_texts(seed, kinds, n, groups)
        if n <= TRIED_PLACEMENTS:
            tried += 1
            found += 0 < compare_layouts(seed, kinds["names"], names, n, groups)
    print(f"alike: {SETS} sets, each in three kinds; {tried} beside all choices, {found} of them with a layout")


main()
