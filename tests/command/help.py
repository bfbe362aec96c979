#!/usr/bin/env python3
"""The help and the man page name the same commands and options, and the manual names all of them:
python3 help.py PLATEWRIGHT MANUAL"""
import os
import re
import subprocess
import sys

HERE = os.path.dirname(os.path.abspath(__file__))
MAN = os.path.join(HERE, "..", "..", "command", "platewright.1")
STATUSES = {"0", "1", "2", "10", "11"}
OPTION = r"-o|-h|--[a-z]+"


def shown(program, words):
    return subprocess.run([program] + words, capture_output=True, text=True, check=True).stdout


def options_of_help(text):
    """{option: what it takes} of the lines under Options."""
    lines = text.split("\nOptions:\n")[1].split("\n\n")[0].split("\n")
    found = {}
    for line in lines:
        names, takes = re.match(rf"  ((?:(?:{OPTION}),?)+)(?: ([A-Z]+))?(?:  |$)", line).groups()
        found.update({name: takes or "" for name in names.split(",")})
    return found


def commands_of_help(text):
    return re.findall(r"^  ([a-z]+) ", text.split("\nCommands:\n")[1].split("\n\n")[0], re.M)


def options_of_man(text):
    """{option: what it takes} of the tagged paragraphs."""
    found = {}
    for tag in re.findall(r"^\.TP\n(.*)$", text, re.M):
        plain = re.sub(r'^\.[A-Z]+ |\\f.|"', "", tag).replace("\\-", "-").replace("\\ ", " ")
        takes = re.search(r" ([A-Z]+)$", plain)
        names = re.findall(rf"(?<!\S)(?:{OPTION})", plain.replace(",", " "))
        found.update({name: takes.group(1) if takes else "" for name in names})
    return found


def sections(text, macro):
    pieces = re.split(rf"^\.{macro} (.*)$", text, flags=re.M)
    return dict(zip(pieces[1::2], pieces[2::2]))


def expect(one, other, what):
    if one != other:
        sys.exit(f"help: {what}: {one} is not {other}")


def main():
    program, manual = sys.argv[1:]
    with open(MAN, encoding="utf-8") as man, open(manual, encoding="utf-8") as opened:
        page, told = sections(man.read(), "SH"), set(re.findall(rf"(?<![\w-])(?:{OPTION})(?![\w-])", opened.read()))
    whole, own = shown(program, ["--help"]), sections(page["COMMANDS"], "SS")
    common = options_of_man(page["ALL COMMANDS"])
    expect(commands_of_help(whole), list(own), "commands of help and man page")
    expect(options_of_help(whole), {o: "" for o in ("--version", "-h", "--help")}, "options of the whole help")
    named = set(common)
    for command, text in own.items():
        page_options = {**common, **options_of_man(text)}
        del page_options["--version"]
        expect(options_of_help(shown(program, [command, "--help"])), page_options, f"options of {command}")
        named |= set(page_options)
    expect(set(re.findall(r"^\.B (\d+)$", page["EXIT STATUS"], re.M)), STATUSES, "statuses of the man page")
    expect(set(re.findall(r"\b(\d+) [a-z]", whole.split("Exit status: ")[1])), STATUSES, "statuses of the help")
    expect(named - told, set(), "options that the manual doesn't name")
    print(f"help: {len(own)} commands and {len(named)} options, alike in help, man page and manual")


main()
