#!/usr/bin/env bash
# Builds the fuzz test with the sanitizers and runs it; with a time in seconds, libFuzzer runs it for that long instead.
#     tests/command/fuzz.sh ARCHIVE [SECONDS]
set -eu
[ $# -ge 1 ] || { echo "usage: tests/command/fuzz.sh ARCHIVE [SECONDS]" >&2; exit 2; }
archive=$(realpath "$1")
cd "$(dirname "$0")/../.."
folder=$(mktemp -d)
trap 'rm -rf "$folder"' EXIT
sources=$(ls command/*.cpp | grep -v -e main.cpp -e usage.cpp)
flags="-std=c++17 -Wall -Wextra -Werror -g1 -fno-sanitize-recover=all -Iinclude"
if [ $# -eq 1 ]; then
    # shellcheck disable=SC2086
    g++ $flags -fsanitize=address,undefined tests/command/fuzz.cpp $sources "$archive" -o "$folder/fuzz"
    "$folder/fuzz"
else
    # shellcheck disable=SC2086
    clang++ $flags -O1 -DLIBFUZZER -fsanitize=fuzzer,address,undefined tests/command/fuzz.cpp $sources "$archive" \
        -o "$folder/fuzz"
    mkdir "$folder/corpus"
    printf 'placements a b@1.1 c\na b@1.1\n-a \xe2\x88\x92c # x\n.\n' > "$folder/corpus/names"
    printf '3 1 2 3 0\n-1 2 0' > "$folder/corpus/numbers"
    printf 'P\0\3GT\0\1T\0\2L\0\3EC\7GEZ' > "$folder/corpus/strip"
    "$folder/fuzz" "$folder/corpus" -max_len=1000 -max_total_time="$2" -timeout=20
fi
