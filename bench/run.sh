#!/usr/bin/env bash
# The benchmark, in one command. Ratios in one run mean something, absolute times don't, and no time is a test.
#
#     bench/run.sh [OPTION...] [STRIP...]  compares random filings, then measures the filings of bench/filings.py, or
#                                          the strips given, and prints a table for each kind; without strips it also
#                                          writes docs/speed.svg, and prints the line of --keystroke
#     bench/run.sh --growth [OPTION...]    how cost grows with placements, groups and entries
#     bench/run.sh --longest [STRIP...]    what the start of a search and its longest split cost, on the filings made to
#                                          be slow, and how that grows with the table
#     bench/run.sh --worst [OPTION...]     looks for tables on which a start or a split is slow (bench/worst.py)
#     bench/run.sh --compare [WORD...]     only compares, WORDs as bench/compare.cpp says
#     bench/run.sh --keystroke             what one element more costs beside a whole check of a table at the limits
#     bench/run.sh --settle [STRIP...]     what one settle costs on each filing, and one preview of its last group
#     bench/run.sh --list [STRIP...]       what one list costs on each filing made for it
#     bench/run.sh --stack                 the stack that each operation uses at its worst sets (tests/threads.cpp)
#
# OPTIONs (bench/table.py): --allowance N, --seconds S for the library on one filing, --limit S for a whole run,
# --reference PROGRAM (or REFERENCE in the environment). MOST_SPLITS in the environment is the largest allowance at
# which filings are compared.
#
# The library is proved and built here, by rt. With PLATEWRIGHT_PREFIX in the environment the one that is installed
# there (install.sh) is measured instead, and rt isn't needed.
set -eu
caller=$PWD
export PYTHONDONTWRITEBYTECODE=1
cd "$(dirname "$0")/.."
out=target/bench

need() { # command, Debian package
    command -v "$1" >/dev/null && return
    if [ "$(id -u)" -eq 0 ]; then
        apt-get install -y -qq "$2" || { apt-get update -qq && apt-get install -y -qq "$2"; }
    fi >/dev/null 2>&1
    command -v "$1" >/dev/null && return
    echo "bench/run.sh: '$1' is missing and could not be installed; install the Debian package '$2'" >&2
    exit 1
}

proved() { # crates
    tools/build.sh "$@" >"$out/build.log" 2>&1 || { cat "$out/build.log"; exit 1; }
}

in_callers() { # a file's name as the caller gave it
    (cd "$caller" && realpath "$1")
}

if [ -n "${PLATEWRIGHT_PREFIX-}" ]; then
    prefix=$(in_callers "$PLATEWRIGHT_PREFIX")
    include=$prefix/include archive=$prefix/lib/libplatewright.a layout=$prefix/bin/layout
else
    prefix=
    include=include archive=target/staticlib/libplatewright.a layout=target/bin/layout
fi

library() {
    [ -n "$prefix" ] || proved platewright
}

flags=(-std=c++17 -O3 -march=native -pthread -Wall -Wextra -Werror -Wno-psabi)

compiled() { # program of this folder or another C++ file, further words for the compiler
    need g++ g++
    local source=bench/$1.cpp
    [ -e "$source" ] || source=$1
    g++ "${flags[@]}" "-I$include" "$source" "${@:2}" "$archive" -o "$out/$(basename "$1" .cpp)"
}

# The search that tells what it walked is no part of what is installed.
compiled_measure() {
    if [ -n "$prefix" ]; then
        compiled measure
    else
        proved memo_trial
        compiled measure -DMEMO_TRIAL target/staticlib/libmemo_trial.a
    fi
}

compare() { # words for compare
    compiled compare
    "$out/compare" --most-splits "${MOST_SPLITS:-2000}" "$@"
}

keystroke() {
    compiled keystrokes
    "$out/keystrokes"
}

made() { # the filings of some modes become `strips`
    local kind
    : >"$out/made"
    for kind; do python3 bench/filings.py "$kind" "$out/strips/$kind" >>"$out/made"; done
    mapfile -t strips <"$out/made"
}

measured() { # program, on the filings of the mode where no strips were given
    compiled "$1"
    [ "${#strips[@]}" -gt 0 ] || made "$mode"
    "$out/$1" "${strips[@]}"
}

table() {
    local picture=()
    need minisat minisat
    need cadical cadical
    need clasp clasp
    [ -n "$prefix" ] || proved layout
    compiled own
    compiled_measure
    compare
    if [ "${#strips[@]}" -eq 0 ]; then
        made table worst memory
        picture=(--picture docs/speed.svg)
    fi
    python3 bench/table.py --layout "$layout" "${picture[@]}" "${options[@]}" "${strips[@]}"
    [ "${#picture[@]}" -eq 0 ] || keystroke
}

growth() {
    compiled_measure
    made growth
    python3 bench/table.py --growth --allowance 20000 "${options[@]}" "${strips[@]}"
}

longest() {
    compiled longest
    [ "${#strips[@]}" -gt 0 ] || made worst longest
    python3 bench/table.py --longest "${options[@]}" "${strips[@]}"
}

worst() {
    compiled longest
    python3 bench/worst.py "${options[@]}"
}

stack() {
    compiled tests/threads.cpp
    "$out/threads" --measure
}

mode=table
case ${1-} in
--growth | --longest | --worst | --compare | --keystroke | --settle | --list | --stack)
    mode=${1#--}
    shift
    ;;
esac

options=() strips=()
while [ $# -gt 0 ]; do
    case $1 in
    --reference)
        options+=("$1" "$(in_callers "${2:?missing after $1}")")
        shift
        ;;
    --*=*) options+=("$1") ;;
    --*)
        options+=("$1" "${2:?missing after $1}")
        shift
        ;;
    *) strips+=("$(in_callers "$1")") ;;
    esac
    shift
done

mkdir -p "$out"
need python3 python3
library
case $mode in
compare) compare "${options[@]}" ;;
settle) measured settles ;;
list) measured listings ;;
*) "$mode" ;;
esac
