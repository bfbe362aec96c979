#!/usr/bin/env python3
"""Brings the repository's own definitions and lemmas to the kit's spelling: functions, lemmas and fields in snake case.

usage: tools/respell.py [--check]      at the top of the repository, once, after the kit's port.py

It reads the names that specs/*.antt and proofs/*.antt declare (fields, binders and local names too), and turns each, as a whole
word, in every .antt and .rt file, in must-fail edits and in the documents' code spans: 'searchCall' to 'search_call',
'search-accepts' to 'search_accepts'. A lemma that would get the name of a definition gets '_lem' behind it. Names that a file
brings in from the kit stay, also where the repository declares one of the same spelling. --check writes nothing, and lists
what would fall together in one file.
"""
import collections
import glob
import os
import re
import sys

WORD = re.compile(r"[^\s(){}.;,@\"«»\[\]`]+")
KEYS = r"(?:(?:pub|abbrev|unfoldable|opaque|private|data|record|instance|mutual|where|let|in)[ \t]+)*"
DECLARED = re.compile(r"(?m)^[ \t]*" + KEYS + r"([^\s(){}.;,@\":]+)(?:[ \t]+[^\s:=→]+)*[ \t]*:[ \t\n]")
BOUND = re.compile(r"[({]([^\s(){}.;,@\":=]+(?:[ \t]+[^\s(){}.;,@\":=]+)*)[ \t]*:[ \t]")
LET = re.compile(r"\blet[ \t]+([^\s(){}.;,@\":=]+)[ \t]*[:=]")
LAMBDA = re.compile(r"λ ([^.(]*)\.")
USE = re.compile(r"(?m)^\s*(?:pub |ghost )*use ([^\s{]+)\{([^}]*)\}")
COMMENT = re.compile(r"(--|//)[^\n]*")
SPAN = re.compile(r"`[^`\n]*`")
# names of ours that port.py turned itself, since a library has the same: it turns neither edits nor pages
PORTED = """
a-pair abs-neg add-spec adds-none after-first after-minus after-next again-kept ahead-none all-but-last all-closed all-of all-pass
all-true and-intro answerOf any-found any-last apart-none as-before assign-other at-code at-most at-most-one at-rest atMost
back-last beside-trans bit-le bit-not block-same blockAt blocks-end blocksFrom bool-cases both-rest branches-at by-first by-length
by-one by-sign by-tests by-turn by-two byCounts byte-at byteOf bytes-rest choiceOf choose-spec closed-after closed-at closed-in
code-below codeAt codeOf codes-same codesOf cond-ind cond-same count-kept count-less count-min count-none count-same countOf
counted-spec counting-more creditAt crossing-is dead-end digits-decimal encode-injective end-low end-same endedAs ends-as ends-at
entry-length entry-read entry-spec entryOf eqb-same filled-more filled-none find-none finished-as first-count first-entry first-of
first-passes first-rows first-spec first-walk firstAt firstOf from-first from-one from-start from-told from-zero front-bytes
front-kept front-length front-long getD-past given-stays goes-moved goes-on going-less good-left good-right has-one has-room
head-of hit-other in-both in-cells in-list in-order in-pair in-rest in-use in-whole is-code is-last is-open is-read isNone
isSigned isWide keep-spec keeping-all keeping-none kept-goes kept-more kept-next kept-put kept-refl kept-trans known-at known-in
laid-kept last-end last-found leading-end leading-length leaf-first left-here left-open left-other left-out length-from lengthOf
lent-spec linkIn list-read listed-more listing-none listsOf live-all live-same load-below load-set look-none look-spec markOf
marks-begin mem-index mem-written member-of met-all met-by narrow-at neg-is new-meets new-spec next-fits next-start nextFrom
nextOf no-digit no-end no-operand no-room node-stays none-after none-first none-found none-left none-more none-named none-true
not-after not-negative not-root not-same not-seen not-short not-wide noted-back noted-more noted-nothing noted-other numberAt
numberIn numberOf one-fewer one-found one-holds one-line one-more one-of only-at only-one only-two open-code open-in open-none
open-of open-step opens-at opens-before opensOf operand-same operandAt or-left or-right outside-refl outside-set outside-trans
outside-wider pair-end paired-by part-at partOf parts-are past-next place-here place-inside place-is place-none placeIn placeOf
planOf put-back put-other read-names read-spec read-wide readBy reads-go reads-on reads-word ready-moved reason-kept rest-at
rest-of restOf roots-few row-at row-fits row-more rows-apart rows-append rows-are rows-as rows-fit rows-is rows-row rows-whole
rowsOf runFrom same-at same-block same-code same-count same-end same-false same-outcome same-parts same-refl same-spec same-true
same-turn second-is second-walk seen-all seen-here seen-next set-after set-below set-here settled-at settled-same short-none
sideOf sides-apart sign-at size-below size-is slot-kept slot-same slotAt slotsOf so-far some-left split-at split-below stands-here
stands-same start-spec startAt startOf stateOf still-open store-spec sum-mono sum-one sum-same sum-step sumTo swapped-other
table-is tableAt tableOf take-at take-next take-past take-spec taken-is takenOf tallyOf times-snoc to-end to-last too-long
tree-lists treeOf turn-spec turnOf turned-same two-meets unit-left unit-spec upTo value-low valueAt valuesOf walk-begins walk-ends
walkOf walked-call went-refl whole-is wide-low wide-spec within-all within-none within-of without-more word-bytes word-first
word-same wordAt wordOf written-at written-in
"""
# a parameter that would hide a definition of its file
APART = {"crates/theory/proofs/Closed.antt": {"none_true": "no_true"}}
CLAUSES = re.compile(r"ghost use[^;]*;|(?:requires|ensures)\*?\s*\w*\s*\{(?:[^{}]|\{[^{}]*\})*\}|ghost\s+\w+\s*:\s*\{[^}]*\}")


def wants(word):
    return bool(re.match(r"[a-z]\w*[A-Z]", word) or re.search(r"[\w']-[\w']", word)) and re.match(r"[A-Za-z≼≺≤μ][\w'≼≺≤·μ-]*$", word)


def spelled(word):
    word = word.replace("getD", "get_or").replace("get_d_", "get_or_")
    parts = [re.sub(r"(?<=[a-z0-9])([A-Z])", lambda m: "_" + m.group(1).lower(), p) if re.match(r"[a-z]", p) else p for p in word.split("-")]
    return "_".join(parts)


def code(text):
    return COMMENT.sub("", text)


def files():
    own = glob.glob("crates/*/specs/**/*.antt", recursive=True) + glob.glob("crates/*/proofs/**/*.antt", recursive=True)
    return sorted(own), sorted(glob.glob("crates/*/src/*.rt")), sorted(glob.glob("crates/*/must-fail/*.edit"))


def is_function_proof(path):
    return "/proofs/" in path and path.split("/proofs/")[1].count("/") > 0


def declared(antt, crates):
    names, brought = set(), set()
    for path in antt:
        with open(path, encoding="utf-8") as f:
            text = code(f.read())
        for module, items in USE.findall(text):
            if not re.match(r"Rattle\.(?:" + "|".join(crates) + r")\.", module):
                brought |= {part.strip() for item in items.split(",") for part in [item.split(" as ")[0]]}
        if is_function_proof(path):
            names |= {m for m in DECLARED.findall(text) if m.endswith("-spec") or m.startswith("+")}
            continue
        names |= set(DECLARED.findall(text)) | set(LET.findall(text))
        for group in BOUND.findall(text) + LAMBDA.findall(text):
            names |= set(group.split())
    return {n for n in names if wants(n)} - brought, names


def table(names, all_names):
    rows = {n: spelled(n) for n in names}
    definitions = {rows.get(n, n) for n in all_names if "-" not in n}
    return {n: v + "_lem" if "-" in n and v in definitions else v for n, v in rows.items()}


def turned(text, rows, dashes=True, after_dot=True):
    def one(m):
        word = m.group(0)
        if word not in rows or ("-" in word and not dashes):
            return word
        if not after_dot and rows[word].endswith("_lem") and m.start() and text[m.start() - 1] == ".":
            return word
        return rows[word]

    return WORD.sub(one, text)


def turn_antt(text, rows, function):
    out, last = [], 0
    for m in COMMENT.finditer(text):
        out.append(turned(text[last : m.start()], rows, True, not function))
        comment = SPAN.sub(lambda s: turned(s.group(0), rows), m.group(0))
        out.append(turned(comment, rows, False))
        last = m.end()
    return "".join(out) + turned(text[last:], rows, True, not function)


def turn_rt(text, rows):
    text = CLAUSES.sub(lambda m: turned(m.group(0), rows), text)
    text = SPAN.sub(lambda m: turned(m.group(0), rows), text)
    return turned(text, rows, False)


def turn_page(text, rows):
    return SPAN.sub(lambda m: turned(m.group(0), rows), text)


def together(path, before, rows):
    seen = collections.defaultdict(set)
    for word in set(WORD.findall(code(before))):
        seen[rows.get(word, word)].add(word)
    for new, old in seen.items():
        if len(old) > 1:
            print(f"{path}: {', '.join(sorted(old))} -> {new}")


def main(check):
    crates = sorted(c for c in os.listdir("crates") if os.path.isdir(os.path.join("crates", c)))
    antt, rt, edits = files()
    rows = table(*declared(antt, crates))
    ported = {n: spelled(n) for n in PORTED.split()} | rows
    pages = ["README.md"] + sorted(p for p in glob.glob("docs/*.md") if not p.endswith("PORT.md"))
    turns = [(p, lambda t, p=p: turn_antt(t, rows | APART.get(p, {}), is_function_proof(p))) for p in antt]
    turns += [(p, lambda t: turn_rt(t, rows)) for p in rt]
    turns += [(p, lambda t: turned(t, ported)) for p in edits] + [(p, lambda t: turn_page(t, ported)) for p in pages]
    for path, turn in turns:
        with open(path, encoding="utf-8") as f:
            before = f.read()
        if check:
            together(path, before, rows | APART.get(path, {})) if path.endswith((".antt", ".rt")) else None
            continue
        after = turn(before)
        if after != before:
            with open(path, "w", encoding="utf-8") as f:
                f.write(after)
    print(f"{len(rows)} names", file=sys.stderr)


if __name__ == "__main__":
    main("--check" in sys.argv[1:])
