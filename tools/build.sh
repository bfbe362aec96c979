#!/usr/bin/env bash
# Proves and builds the crates that are named: a static library to target/staticlib, a program to target/bin.
# Usage: tools/build.sh NAME...
set -eu
cd "$(dirname "$0")/.."
mkdir -p target/staticlib target/bin
for name; do
    if grep -q "^$name staticlib" crates.txt; then
        (cd "crates/$name" && rt lib)
        cp "crates/$name/out/lib$name.a" target/staticlib/
    else
        # rt builds a program to run it: here on no input
        (cd "crates/$name" && rt run </dev/null)
        cp "crates/$name/out/$name" target/bin/
    fi
done
