#!/usr/bin/env python3
"""Counts, in crates/*/src, the places that docs/DESIGN-PASS.md speaks of. Usage: tools/places.py [COMMIT] [POINT]
Without a commit it reads the files as they stand; with a point's number it lists each place."""
import re
import subprocess
import sys

COMMIT = next((a for a in sys.argv[1:] if len(a) > 1), "")
POINT = next((a for a in sys.argv[1:] if len(a) == 1), "")


def run(*words):
    return subprocess.run(words, capture_output=True, text=True, check=True).stdout


TOP = run("git", "rev-parse", "--show-toplevel").strip()


def files(suffix):
    if COMMIT:
        for path in run("git", "-C", TOP, "ls-tree", "-r", "--name-only", COMMIT, "crates").split():
            if path.endswith(suffix):
                yield path, run("git", "-C", TOP, "show", f"{COMMIT}:{path}")
    else:
        for path in run("git", "-C", TOP, "ls-files", "crates").split():
            if path.endswith(suffix):
                with open(f"{TOP}/{path}", encoding="utf-8") as it:
                    yield path, it.read()


SOURCES = [(path, text) for path, text in files(".rt")]


def lines(pattern, flags=0):
    """The places at which a pattern stands, outside comments."""
    found = []
    for path, text in SOURCES:
        for number, line in enumerate(text.split("\n"), 1):
            if not line.lstrip().startswith("//") and re.search(pattern, line, flags):
                found.append(f"{path}:{number}: {line.strip()}")
    return found


def enums():
    """Enums with two variants of which one holds nothing or a refusal, or none of both: the shape of Option and Result."""
    found = []
    for path, text in SOURCES:
        for it in re.finditer(r"^(?:pub )?enum (\w+) \{\n(.*?)^\}", text, re.M | re.S):
            variants = re.findall(r"^    (\w+)", it.group(2), re.M)
            holds = [v for v in variants if re.search(rf"^    {v}[ (]", it.group(2), re.M)]
            if len(variants) in (2, 3) and 1 <= len(holds) and len(variants) - len(holds) <= 2 and len(holds) <= 2:
                found.append(f"{path}: {it.group(1)} ({', '.join(variants)})")
    return found


def clauses():
    """Facts that stand in the contracts of three functions or more, as they are written there."""
    seen = {}
    for path, text in SOURCES:
        name = ""
        for line in text.split("\n"):
            head = re.match(r" *(?:pub )?(?:extern \"C\" )?fn (\w+)", line)
            if head:
                name = head.group(1)
            fact = re.match(r" *(?:requires|ensures)(?: \w+)? \{ (.*) \}", line)
            if fact:
                seen.setdefault(fact.group(1).replace(".old", "").replace(".new", "").replace(".now", ""), set()).add(f"{path}: {name}")
    return [f"{fact}: {len(where)} functions" for fact, where in sorted(seen.items(), key=lambda it: -len(it[1])) if len(where) >= 3]


def together(*kinds, answer=""):
    """Functions whose parameters have all these types, and whose answer is of this type."""
    found = []
    for path, text in SOURCES:
        for it in re.finditer(r"^ *(?:pub )?(?:extern \"C\" )?fn (\w+)(?:<[^>]*>)?\((.*?)\)(?: -> ([^\n]*)|\n)", text, re.M | re.S):
            if all(re.search(kind, it.group(2)) for kind in kinds) and re.match(answer, it.group(3) or ""):
                found.append(f"{path}: {it.group(1)}")
    return found


COUNTS = [
    ("1", "enums of the shape of Option or Result", enums),
    ("1", "flags beside a value", lambda: lines(r"^    (pub )?(dead|failed): bool,")),
    ("1", "functions that answer a dead end by a bool", lambda: together(r"&mut (Notes|Tally)", answer="bool")),
    ("2", "functions of a name with another type's behind it", lambda: lines(r"fn (clear_(bytes|numbers|reasons)|put_(choices|entries)|gather_(near|far)|else_(clause|pair)|same|differ|at_most|shorter|one_more)\b")),
    ("3", "loops that count an index", lambda: lines(r"^ *(for \w+ in .*\.\.|while \w+ <|while 0 <)")),
    ("3", "loop {", lambda: lines(r"^ *loop \{")),
    ("4", "equality, numbers and bytes of an enum by hand", lambda: lines(r"fn (same|differ|byte|of_byte|code|of_code|entry|of_entry|number)\(")),
    ("5", "facts in three contracts or more", clauses),
    ("5", "functions of a table and its values", lambda: together(r"table: &\[i16\]", r"values: &\[u16")),
    ("5", "functions of index, state and work space", lambda: together(r"index: &Index", r"state: &(mut )?Tally", r"work: &(mut )?Notes")),
    ("6", "flat arrays with offsets, and ends beside an array", lambda: lines(r"pub type \w+ = \[u16; SIZE\]|^(pub )?const [A-Z_]+: usize = [A-Z_]+ \+ ")),
    ("7", "switches on what to ask", lambda: lines(r"^ *match (rule|test|sign|mark)\b")),
]
if not POINT:
    print(f"{sum(text.count(chr(10)) for _, text in SOURCES)} lines, {len(lines(r'^ *(pub )?(extern .C. )?fn '))} functions")
for point, what, count in COUNTS:
    if POINT and point != POINT:
        continue
    found = count()
    print(f"{point}  {len(found):4}  {what}")
    if POINT:
        print("".join(f"         {it}\n" for it in found), end="")
if not POINT or POINT == "8":
    answers = [text for path, text in files("Answers.antt")]
    invariants = [path for path, _ in files("Invariants.antt")]
    proofs = [text for path, text in files(".antt") if "/proofs/" in path]
    print(f"8  {len(answers):4}  files of answers, {sum(len(re.findall(r'^pub .*: goal', it, re.M)) for it in answers)} answers; {len(invariants)} files of invariants; "
          f"{sum(it.count(chr(10)) for it in proofs)} lines of proofs")
