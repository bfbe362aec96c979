#!/usr/bin/env python3
"""Every name in docs/THEOREMS.md must be there: a theorem or definition of crates/*/specs or proofs, a function or type
of crates/*/src, a function or constant of include/platewright.h, a crate, or a file.

    tests/names.py [ROOT]    prints what is declared nowhere, or not where it says; a failure if there is any

A name is what stands between two backquotes. In a table whose first cell is a name with an underscore at its end, as
`search_`, the names of the other cells go on from it. A word in round brackets after names is the file that has them,
of crate theory or of the crate that is named.
"""
import pathlib
import re
import sys

DOCUMENT = "docs/THEOREMS.md"
QUOTED = re.compile(r"`([^`]+)`")
PREFIX = re.compile(r"^\|\s*`(\w+_)`\s*\|")
PLACED = re.compile(r"((?:`[^`]+`(?:,| and)?\s+)+)\(([A-Z]\w+)(?:,\s+of\s+`(\w+)`)?\)")
KINDS, BINDERS = r"(?:(?:abbrev|unfoldable)\s+)?pub\s+(?:(?:record|data)\s+)?", r"(?:\s+[({].*)?"
ANTT = re.compile(r"^\s*" + KINDS + r"([^\s:(){}]+)" + BINDERS + r"\s*:(?:\s|$)")
RATTLE = re.compile(r"\b(?:fn|struct|enum|const|type)\s+(\w+)")
HEADER = re.compile(r"\b(platewright_\w+|PLATEWRIGHT_\w+)\b")


def names_of(root, pattern, expression):
    """The first name that a line declares, over the files of a pattern."""
    for path in root.glob(pattern):
        for line in path.read_text(encoding="utf-8").splitlines():
            yield from expression.findall(line)[:1]


def declared(root):
    names = set(names_of(root, "crates/*/**/*.antt", ANTT)) | set(names_of(root, "crates/*/src/*.rt", RATTLE))
    names |= set(HEADER.findall((root / "include/platewright.h").read_text(encoding="utf-8")))
    return names | {path.name for path in (root / "crates").iterdir() if path.is_dir()}


def mentioned(text):
    """Each name of the document with its line, those of a table's cells in full."""
    for number, line in enumerate(text.splitlines(), 1):
        prefix = PREFIX.match(line)
        names = QUOTED.findall(line)
        for name in names[1:] if prefix else names:
            yield number, (prefix.group(1) if prefix else "") + name


def nowhere(root, names):
    known = declared(root)
    for number, name in names:
        if name not in known and not (root / name).exists():
            yield "%s:%d: `%s` is declared nowhere" % (DOCUMENT, number, name)


def elsewhere(root, text):
    """Names that the file in round brackets after them doesn't declare."""
    for words, file, crate in PLACED.findall(text):
        there = set(names_of(root, "crates/%s/*/%s.antt" % (crate or "theory", file), ANTT))
        for name in QUOTED.findall(words):
            if name not in there:
                yield "%s: `%s` is not declared in %s of crate %s" % (DOCUMENT, name, file, crate or "theory")


def main():
    root = pathlib.Path(sys.argv[1] if len(sys.argv) > 1 else pathlib.Path(__file__).parent.parent)
    text = (root / DOCUMENT).read_text(encoding="utf-8")
    names = list(mentioned(text))
    wrong = list(nowhere(root, names)) + list(elsewhere(root, text))
    print("".join(line + "\n" for line in wrong), end="")
    print("%d names of theorems and definitions in %s, %d wrong" % (len(names), DOCUMENT, len(wrong)))
    sys.exit(bool(wrong) or not names)


if __name__ == "__main__":
    main()
