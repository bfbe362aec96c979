#!/usr/bin/env bash
# Tries a built command: stored cases, the manual's transcripts, sets in three kinds, help beside man page and manual.
#     tests/command/run.sh PLATEWRIGHT
set -eu
[ $# -eq 1 ] || { echo "usage: tests/command/run.sh PLATEWRIGHT" >&2; exit 2; }
program=$(realpath "$1")
[ "$(basename "$program")" = platewright ] || { echo "the program must be called platewright" >&2; exit 2; }
cd "$(dirname "$0")"
manual=../../docs/COMMAND.md
python3 transcript.py "$program" cases/*.md "$manual"
python3 alike.py "$program"
python3 help.py "$program" "$manual"
