#!/usr/bin/env bash
# Tries every wrong program of wrong.hpp: each must be found by the trials of its operation. Prints a line for each, and
# ends with 1 where one is not found.
# Usage: tests/wrong.sh libplatewright.a libmemo_trial.a
set -eu
archives=("$(realpath "$1")" "$(realpath "$2")")
cd "$(dirname "$0")"
work=$(mktemp -d)
trap 'rm -rf "$work"' EXIT
flags=(-std=c++17 -O1 -Wall -Wextra -Werror -Wno-psabi -DWRONG -I../include)
printf '%s\n' trials*.cpp | xargs -P "$(nproc)" -I{} g++ "${flags[@]}" -c {} -o "$work/{}.o"
for walk in quick wrong_memory; do g++ "${flags[@]}" -O2 -c "$walk.cpp" -o "$work/$walk.o"; done
g++ "$work"/*.o "${archives[@]}" -lrapidcheck -o "$work/trials"

# without a fault the same program agrees, so what is found is the fault (large trees and the memory apart, which take
# longer)
"$work/trials" hand check index search settle list edits read save window properties >/dev/null
echo "no fault: nothing found"

# nor is anything found in the search of wrong_memory.cpp without a fault, as far as the trials come in some seconds
status=0
WRONG=-1 timeout 10 "$work/trials" memory >"$work/out" 2>&1 || status=$?
[ "$status" = 0 ] || [ "$status" = 124 ] || { cat "$work/out"; exit 1; }
echo "no fault of the memory: nothing found"

"$work/trials" programs >"$work/programs"
[ -s "$work/programs" ] || { echo "no wrong program is listed"; exit 1; }
missed=0
while read -r number where what; do
    status=0
    WRONG=$number timeout 60 "$work/trials" "$where" >"$work/out" 2>&1 || status=$?
    if [ "$status" = 1 ] && grep -q '^disagreement$' "$work/out"; then
        echo "$where: $what: found"
    else
        echo "$where: $what: NOT FOUND"
        missed=$((missed + 1))
    fi
done <"$work/programs"
[ "$missed" = 0 ] || { echo "wrong programs that were not found: $missed"; exit 1; }
echo "all wrong programs were found"
