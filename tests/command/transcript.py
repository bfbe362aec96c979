#!/usr/bin/env python3
"""Runs the transcripts of a file and compares: python3 transcript.py [--update] PLATEWRIGHT FILE...

A transcript is lines that are indented by four spaces. A line `$ COMMAND` is run by bash, `> ` goes on with it; the
lines after it are what it wrote to standard output, then, each after `2> `, what it wrote to standard error, then its
status, `[10]`, if that isn't 0. All commands of a file run in one new folder with a copy of the examples' sheets.txt.
--update writes what came into the file, to be read before it is kept."""
import os
import re
import shutil
import subprocess
import sys
import tempfile

HERE = os.path.dirname(os.path.abspath(__file__))
SHEETS = os.path.join(HERE, "..", "..", "examples", "sheets.txt")
INDENT = "    "


def steps_of(lines):
    """The file in pieces: (first line, command or None, lines as they stand)."""
    steps = []
    for number, line in enumerate(lines, 1):
        if line.startswith(INDENT + "$ "):
            steps.append((number, line[len(INDENT) + 2:], [line]))
            continue
        first, command, own = steps[-1] if steps else (0, None, [])
        if command is None or not line.startswith(INDENT):
            steps.append((number, None, [line]))
        elif line.startswith(INDENT + "> ") and len(own) == command.count("\n") + 1:
            steps[-1] = (first, command + "\n" + line[len(INDENT) + 2:], own + [line])
        else:
            own.append(line)
    return steps


def shown(data):
    """Bytes as lines; what is no text is shown as \\xNN."""
    text = data.decode("utf-8", "backslashreplace")
    text = re.sub("[^\x20-\x7e\n\u00a0-\U0010ffff]", lambda m: "\\x%02x" % ord(m.group()), text)
    lines = text.split("\n")
    return lines[:-1] if lines[-1] == "" else lines[:-1] + [lines[-1] + "\\"]


def run(command, folder, program):
    path = os.path.dirname(os.path.abspath(program)) + os.pathsep + os.environ["PATH"]
    ran = subprocess.run(["bash", "-c", command], cwd=folder, env={**os.environ, "PATH": path, "LC_ALL": "C"},
                         stdin=subprocess.DEVNULL, capture_output=True, timeout=60)
    lines = shown(ran.stdout) + ["2> " + line for line in shown(ran.stderr)]
    return lines + (["[%d]" % ran.returncode] if ran.returncode else [])


def try_file(file, program, update):
    with open(file, encoding="utf-8") as opened:
        steps = steps_of(opened.read().split("\n"))
    folder = tempfile.mkdtemp(prefix="platewright-")
    shutil.copy(SHEETS, folder)
    wrong = tried = 0
    kept = []
    for number, command, lines in steps:
        if command is not None:
            tried += 1
            head = lines[:command.count("\n") + 1]
            expected = [line[len(INDENT):] for line in lines[len(head):]]
            came = run(command, folder, program)
            if expected != came:
                wrong += 1
                if update:
                    lines = head + [INDENT + line for line in came]
                else:
                    print("\n".join([f"{file}:{number}: $ {command}", "--- expected", *expected, "--- came", *came]))
        kept += lines
    shutil.rmtree(folder)
    if update:
        with open(file, "w", encoding="utf-8") as opened:
            opened.write("\n".join(kept))
    return tried, wrong


def main():
    words = sys.argv[1:]
    update = words[:1] == ["--update"]
    program, *files = words[update:]
    tried = wrong = 0
    for file in files:
        more_tried, more_wrong = try_file(file, program, update)
        tried, wrong = tried + more_tried, wrong + more_wrong
    print(f"transcripts: {tried} commands of {len(files)} files, {wrong} not as they stand")
    return 1 if wrong and not update or not tried else 0


sys.exit(main())
