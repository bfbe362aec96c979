#!/usr/bin/env python3
"""Measures strips and prints a table for each folder that they stand in, for bench/run.sh, which builds what is called
here.

The library is called through the window's call, the independent search directly, both by target/bench/measure; the
layout program, the independent search and the solvers are also timed as whole runs, from the start of the process to
its end, the best of several.
"""
import argparse
import math
import os
import resource
import signal
import subprocess
import sys
import time

import filings
import picture

FIGURES = "bench/figures.json"
BENCH = "target/bench"
OUTCOMES = {0: "laid out", 10: "no layout", 11: "stopped"}
SOLVERS = {
    "minisat": ["minisat", "-verb=0"],
    "cadical": ["cadical", "-q", "-n"],
    "clasp": ["clasp", "--quiet=2", "--verbose=0"],
}
SATISFIABLE, UNSATISFIABLE = (10, 30), (20,)
RIGHT_STATUS = {0: SATISFIABLE, 10: UNSATISFIABLE, 11: SATISFIABLE + UNSATISFIABLE}
SERIES = ["library", "independent", "minisat", "cadical", "clasp"]


# Whole runs

def run_once(words, given, limit):
    """Seconds from the start of a process to its end and its status; no seconds where it still ran at the limit."""
    quiet = os.open(os.devnull, os.O_WRONLY)
    source = os.open(given or os.devnull, os.O_RDONLY)
    actions = [(os.POSIX_SPAWN_DUP2, source, 0), (os.POSIX_SPAWN_DUP2, quiet, 1), (os.POSIX_SPAWN_DUP2, quiet, 2)]
    late = []
    start = time.perf_counter()
    child = os.posix_spawnp(words[0], words, os.environ, file_actions=actions)
    signal.signal(signal.SIGALRM, lambda *_: (late.append(1), os.kill(child, signal.SIGKILL)))
    signal.setitimer(signal.ITIMER_REAL, limit)
    _, status = os.waitpid(child, 0)
    seconds = time.perf_counter() - start
    signal.setitimer(signal.ITIMER_REAL, 0)
    os.close(source)
    os.close(quiet)
    return (None if late else seconds), os.waitstatus_to_exitcode(status)


def best_run(words, given, limit):
    best, status = run_once(words, given, limit)
    if best is not None and best < 1:
        for _ in range(9 if best < 0.1 else 2):
            seconds, status = run_once(words, given, limit)
            best = best if seconds is None else min(best, seconds)
    return best, status


def whole_runs(row, options):
    """Seconds of each program on a row's filing, None past the limit."""
    seconds = {}
    for name, program in (("library", options.layout), ("independent", BENCH + "/own")):
        seconds[name], status = best_run([program], row["strip"], options.limit)
        if seconds[name] is not None and status != 0:
            sys.exit("%s: %s ended with %d" % (row["name"], program, status))
    cnf = os.path.join(BENCH, row["name"] + ".cnf")
    with open(row["strip"], "rb") as given, open(cnf, "w") as out:
        out.write(filings.dimacs(*filings.read_strip(given.read())))
    for name, words in SOLVERS.items():
        seconds[name], status = best_run(words + [cnf], None, options.limit)
        right = RIGHT_STATUS[row["number"]]
        if seconds[name] is not None and status not in right:
            outcome = OUTCOMES[row["number"]]
            sys.exit("%s: %s ended with %d, but the filing has the outcome '%s'" % (row["name"], name, status, outcome))
    os.remove(cnf)
    return seconds


# Rows

def name_of(path):
    return os.path.splitext(os.path.basename(path))[0]


def measured(strips, options):
    """One row for each strip, as target/bench/measure gives it."""
    for path in strips:
        command = [BENCH + "/measure", str(options.allowance), str(options.seconds), path]
        printed = subprocess.run(command, stdout=subprocess.PIPE, text=True, check=False).stdout
        words = printed.rsplit(None, 11)
        if not words:
            sys.exit(1)  # measure has said why
        if words[11] != "same":
            sys.exit("%s: library and independent search differ: %s" % (path, printed))
        row = dict(zip(("n", "groups", "entries", "number", "count", "walked", "at", "splits"), map(int, words[1:9])))
        row.update(strip=path, name=name_of(path), kind=os.path.basename(os.path.dirname(path)))
        row.update(library=float(words[9]), independent=float(words[10]))
        yield row


def reference(row, program, allowance, splits):
    """Processor seconds of one search by a program, the best of three. It answers the line `bench N ALLOWANCE e1 e2 ..`
    with `NUMBER PLACE COUNT | .. reps R ..`; it searches once, and if that was short R times more."""
    with open(row["strip"], "rb") as given:
        n, groups = filings.read_strip(given.read())
    line = " ".join(map(str, ["bench", n, allowance] + [e for g in groups for e in g + [0]]))
    best = None
    for _ in range(3):
        before = resource.getrusage(resource.RUSAGE_CHILDREN)
        done = subprocess.run([program], input=line + "\n", stdout=subprocess.PIPE, text=True, check=True)
        words = done.stdout.split()
        after = resource.getrusage(resource.RUSAGE_CHILDREN)
        if int(words[2]) != splits:
            sys.exit("%s: the reference's count is %s" % (row["name"], words[2]))
        repeats = int(words[words.index("reps") + 1])
        seconds = (after.ru_utime + after.ru_stime - before.ru_utime - before.ru_stime) / (repeats + (repeats > 1))
        best = seconds if best is None else min(best, seconds)
    return best


def rate(splits, seconds):
    """Thousands of splits a second."""
    if splits == 0:
        return "-"
    thousands = splits / seconds / 1000
    return "{:,.0f}".format(thousands) if thousands >= 10 else "%.2g" % thousands


def ratio(x):
    return "{:,.0f}".format(x) if x >= 100 else "%.2g" % x


def shown(seconds, limit):
    return ">%g" % limit if seconds is None else "%.3f" % seconds


def mean(ratios):
    return math.exp(sum(map(math.log, ratios)) / len(ratios))


def ahead(row, whole):
    """Who answered first of those that a user could pick."""
    times = {name: whole[name] for name in SERIES if name != "independent" and whole[name] is not None}
    if row["number"] == 11:
        times.pop("library", None)
    return min(times, key=times.get) if times else "-"


FILING = ["filing", "n", "groups", "entries"]


def filing_cells(row):
    return [row["name"], str(row["n"]), str(row["groups"]), "{:,}".format(row["entries"])]


def print_line(cells):
    print("| " + " | ".join(cells) + " |", flush=True)


def head(cells):
    print_line(cells)
    print("|" + "---|" * len(cells))


# The table and the growth of cost

def table_head(options):
    columns = FILING + ["outcome", "count", "walked", "library", "own", "ratio", "layout"] + list(SOLVERS) + ["ahead"]
    head(columns + (["reference", "library to it", "independent to it"] if options.reference else []))


def is_cut(row, options):
    """Measured on the first splits of its tree alone."""
    return row["at"] < options.allowance and row["splits"] == row["at"]


def table_cells(row, options):
    whole = row["whole"]
    cells = filing_cells(row) + [OUTCOMES[row["number"]], "{:,}".format(row["count"])]
    cells += ["{:,}".format(row["walked"]) if row["walked"] or not row["count"] else "-"]
    cells += [rate(row["splits"], row["library"]) + ("*" if is_cut(row, options) else "")]
    cells += [rate(row["splits"], row["independent"]), ratio(row["independent"] / row["library"])]
    cells += [shown(whole[name], options.limit) for name in SERIES if name != "independent"] + [row["ahead"]]
    if options.reference:
        cells += [rate(row["splits"], row["reference"])]
        cells += [ratio(row["reference"] / row[name]) for name in ("library", "independent")]
    return cells


def table_foot(rows, options):
    """What is said of a table's rows together."""
    print()
    cut = ["{} {:,}".format(row["name"], row["at"]) for row in rows if is_cut(row, options)]
    if cut:
        print("\\* on the first splits of the tree: %s." % ", ".join(cut))
    library = mean([row["independent"] / row["library"] for row in rows])
    print("Geometric mean of the ratios, library to independent search: %.2g." % library)
    if options.reference:
        to_it = tuple(mean([row["reference"] / row[name] for row in rows]) for name in ("library", "independent"))
        print("Library to reference: %.2g. Independent search to reference: %.2g." % to_it)
    first = sum(row["ahead"] == "library" for row in rows)
    print("The library is ahead of all three solvers on %d of %d filings.\n" % (first, len(rows)))


def table(strips, options):
    """A table for each kind of filings; the picture has the first."""
    kinds = {}
    for row in measured(strips, options):
        if row["kind"] not in kinds:
            if kinds:
                table_foot(list(kinds.values())[-1], options)
            table_head(options)
        row["whole"] = whole_runs(row, options)
        row["ahead"] = ahead(row, row["whole"])
        if options.reference:
            row["reference"] = reference(row, options.reference, row["at"], row["splits"])
        print_line(table_cells(row, options))
        kinds.setdefault(row["kind"], []).append(row)
    table_foot(list(kinds.values())[-1], options)
    print("Splits a second are those of the tree: what is remembered counts, walked or not.")
    if options.picture:
        run = picture.figures(list(kinds.values())[0], OUTCOMES, options.limit)
        picture.save(run, FIGURES, options.picture)
        print("Measured %s." % run["measured"])


def growth(strips, options):
    """All rows of a series at one allowance, the least that the library reached in any of them: the first splits of a
    tree may be cheaper than later ones."""
    head(FILING + ["splits", "library, us a call", "a split, ns", "independent, us a call", "a split, ns"])
    series = {}
    for row in measured(strips, options):
        series.setdefault(row["name"].split("-")[0], []).append(row)
    for rows in series.values():
        least = min(row["at"] if row["splits"] == row["at"] else options.allowance for row in rows)
        again = argparse.Namespace(allowance=least, seconds=options.seconds * 10)
        for row in measured([row["strip"] for row in rows], again):
            cells = filing_cells(row) + ["{:,}".format(row["splits"])]
            for name in ("library", "independent"):
                a_split = "{:,.0f}".format(1e9 * row[name] / row["splits"]) if row["splits"] else "-"
                cells += ["{:,.1f}".format(1e6 * row[name]), a_split]
            print_line(cells)


# The start and the longest split

def longest_rows(strips, program=BENCH + "/longest"):
    """One row for each strip, as target/bench/longest gives it: seconds by the library, by the independent search."""
    done = subprocess.run([program] + strips, stdout=subprocess.PIPE, text=True, check=False)
    for line in done.stdout.splitlines():
        words = line.rsplit(None, 12)
        if words[12] != "same":
            sys.exit("%s: library and independent search differ: %s" % (words[0], line))
        row = dict(zip(("n", "groups", "entries", "number", "count"), map(int, words[1:6])))
        row.update(strip=words[0], name=name_of(words[0]), kind=os.path.basename(os.path.dirname(words[0])))
        row.update(zip(("start", "split", "call"), zip(map(float, words[6:12:2]), map(float, words[7:12:2]))))
        yield row
    if done.returncode:
        sys.exit(1)  # longest has said why


def longest_head():
    times = ["start us", "own us", "ratio", "longest split us", "own us", "ratio", "call / splits us", "own us"]
    head(FILING + ["splits"] + times)


def longest_cells(row):
    cells = filing_cells(row) + ["{:,}".format(row["count"])]
    for name in ("start", "split"):
        library, independent = (1e6 * seconds for seconds in row[name])
        if row["count"] or name == "start":
            cells += ["%.1f" % time if time > 0 else "-" for time in (library, independent)]
            cells += [ratio(independent / library) if independent > 0 and library > 1 else "-"]
        else:
            cells += ["-"] * 3
    return cells + (["%.1f" % (1e6 * seconds / row["count"]) for seconds in row["call"]] if row["count"] else ["-"] * 2)


def longest(strips):
    """A table for each kind: what the worst filings cost, and how that grows."""
    kind = None
    for row in longest_rows(strips):
        if row["kind"] != kind:
            if kind is not None:
                print()
            longest_head()
            kind = row["kind"]
        print_line(longest_cells(row))


def main():
    parser = argparse.ArgumentParser(description=__doc__, formatter_class=argparse.RawDescriptionHelpFormatter)
    parser.add_argument("--layout", default="target/bin/layout", help="the layout program")
    parser.add_argument("--allowance", type=int, default=1000000,
                        help="splits that a search may make (default: the layout program's)")
    parser.add_argument("--seconds", type=float, default=2,
                        help="where the library is slower than this on a filing it is measured at a smaller allowance")
    parser.add_argument("--limit", type=float, default=10, help="seconds for a whole run")
    parser.add_argument("--reference", default=os.environ.get("REFERENCE"),
                        help="a further program to measure; its answers are in the form of `bench` lines")
    parser.add_argument("--picture", help="the SVG file to write; its figures go to %s" % FIGURES)
    parser.add_argument("--growth", action="store_true", help="print how cost grows instead")
    parser.add_argument("--longest", action="store_true", help="print starts and longest splits instead")
    parser.add_argument("strips", nargs="+")
    options = parser.parse_args()
    if options.longest:
        longest(options.strips)
    else:
        (growth if options.growth else table)(options.strips, options)


if __name__ == "__main__":
    main()
