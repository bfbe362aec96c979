#!/usr/bin/env bash
# What is run beside the proofs, over what a user installs: the archive, the shared library, the header, the Python
# file and the programs. Everything that can be is built with warnings as errors and under the address and
# undefined-behaviour sanitizers. Each step prints a line; the first that fails ends it.
set -eu
cd "$(dirname "$0")/.."
tests/needed.sh
room=$(mktemp -d)
trap 'rm -rf "$room"' EXIT
prefix=$room/prefix
mkdir "$prefix"
sanitized=(-O1 -g -Wall -Wextra -Werror -fsanitize=address,undefined -fno-sanitize-recover=all)

step() { printf '%s: ' "$1"; }

same() { # what is tried, what it wrote, what it must write
    [ "$2" = "$3" ] || { echo "$1: wrote '$2', and not '$3'"; exit 1; }
}

matches() { # what is tried, the file that it wrote, the file that has what it must write
    diff -u "$3" "$2" || { echo "$1: wrote something else than $3 has"; exit 1; }
}

step install
./install.sh "$prefix" >"$room/install.log" || { cat "$room/install.log"; exit 1; }
echo "$(wc -l <"$prefix/share/platewright/installed.txt") files and folders"
export PKG_CONFIG_PATH=$prefix/lib/pkgconfig LD_LIBRARY_PATH=$prefix/lib
read -ra with <<<"$(pkg-config --cflags platewright)"
archive=$prefix/lib/libplatewright.a

step "exported names"
exported() { nm --defined-only "$@" | sed -n 's/^[0-9a-f]* [A-Z] //p' | sort; }
declared=$(grep -o 'platewright_[a-z_]*(' include/platewright.h | tr -d '(' | sort -u)
same "the archive" "$(exported -g "$archive")" "$declared"
same "the shared library" "$(exported -D "$prefix/lib/libplatewright.so")" "$declared"
# the manual: "The library needs nothing but `memcpy` and `memset`"
same "what the archive needs" "$(nm -u "$archive" | sed -n 's/^ *U //p' | sort -u | tr '\n' ' ')" "memcpy memset "
wc -l <<<"$declared"

step "header, from C and from C++"
gcc -std=c11 "${sanitized[@]}" "${with[@]}" tests/header_test.c "$archive" -o "$room/header"
g++ -x c++ -std=c++11 "${sanitized[@]}" "${with[@]}" tests/header_test.c -x none "$archive" -o "$room/header++"
"$room/header" >/dev/null
"$room/header++"

step examples
for source in examples/*.c; do
    name=$(basename "$source" .c)
    # by the archive under the sanitizers, and by pkg-config and the shared library as a user builds it
    gcc -std=c11 "${sanitized[@]}" "${with[@]}" "$source" "$archive" -o "$room/$name"
    # shellcheck disable=SC2046
    gcc -std=c11 -Wall -Wextra -Werror "$source" $(pkg-config --cflags --libs platewright) -o "$room/$name-shared"
    "$room/$name" >"$room/$name.out"
    matches "$name" "$room/$name.out" "examples/$name.expected"
    "$room/$name-shared" >"$room/$name.out"
    matches "$name, by the shared library" "$room/$name.out" "examples/$name.expected"
done
echo examples/*.c

step "sheets, as a drawing"
"$room/sheets" --svg >"$room/sheets.svg"
matches "sheets --svg" "$room/sheets.svg" examples/sheets.svg
g++ -x c++ -std=c++11 "${sanitized[@]}" "${with[@]}" examples/host.c -x none "$archive" -o "$room/host++"
"$room/host++" >"$room/host.out"
matches "host, as C++" "$room/host.out" examples/host.expected
echo "as stored"

step "stored cases"
g++ -std=c++17 "${sanitized[@]}" "${with[@]}" tests/cases.cpp "$archive" -o "$room/cases"
"$room/cases" tests/cases/*.txt

step "threads of the header's stack"
g++ -std=c++17 "${sanitized[@]}" "${with[@]}" -pthread tests/threads.cpp "$archive" -o "$room/threads"
"$room/threads"

step "Python"
PYTHONPATH=$prefix/share/platewright/python python3 tests/python_test.py 2>"$room/python.log" ||
    { cat "$room/python.log"; exit 1; }
grep '^Ran ' "$room/python.log"

# the search with a memory that can be made small is for these alone, and isn't installed
step "trials beside the reference"
tools/build.sh memo_trial >"$room/memo_trial.log" 2>&1 || { cat "$room/memo_trial.log"; exit 1; }
memo_trial=target/staticlib/libmemo_trial.a
mkdir "$room/trials"
(
    cd tests
    printf '%s\n' trials*.cpp | xargs -P "$(nproc)" -I{} \
        g++ -std=c++17 "${sanitized[@]}" -Wno-psabi "${with[@]}" -c {} -o "$room/trials/{}.o"
)
# the quick walks without sanitizers: they would take most of the time
g++ -std=c++17 -O2 -Wall -Wextra -Werror -Wno-psabi "${with[@]}" -c tests/quick.cpp -o "$room/trials/quick.o"
g++ "${sanitized[@]}" "$room"/trials/*.o "$archive" "$memo_trial" -lrapidcheck -o "$room/trials/trials"
"$room/trials/trials" >"$room/trials.out" || { tail -n 60 "$room/trials.out"; exit 1; }
matches trials "$room/trials.out" tests/trials.txt
tail -n 1 "$room/trials.out"

step "wrong programs"
tests/wrong.sh "$archive" "$memo_trial" >"$room/wrong.out" || { cat "$room/wrong.out"; exit 1; }
echo "$(grep -c ': found$' "$room/wrong.out") found"

# layout: document 01's strip, strips of 16,384 and of 16,385 bytes, both in order, with chapters in between, a refusal
# that names its group, and one of a strip that leaves a placement unnamed
step layout
layout=$prefix/bin/layout
chapters() { yes C | tr '\n' '\0' | head -c "$1"; }
longest() { printf 'P\0\0'; chapters 16380; printf Z; }
longer() { printf 'P\0\1GT\0\1E'; chapters 16376; printf Z; }
same "the strips' sizes" "$(longest | wc -c) $(longer | wc -c)" "16384 16385"
same "document 01's strip" "$("$layout" <crates/layout/stdin)" "$(cat crates/layout/stdout)"
same "16,384 bytes" "$(longest | "$layout")" $'laid out\ncount 0\nplan\ntrail'
same "16,385 bytes" "$(longer | "$layout")" "refused 24 0"
same "an unknown placement" "$(printf 'P\0\2GT\0\1ECGGT\0\3EZ' | "$layout")" "refused 5 11 2"
same "an unnamed placement" "$(printf 'P\0\1Z' | "$layout")" "refused 26 3"
echo "as stored"

# strip_of: README's first example, the longest table, and a text of each kind that gets a line on standard error and
# nothing on standard output
step strip_of
strip_of() { timeout 60 "$prefix/bin/strip_of"; }
longest_table() { echo 256; for i in $(seq 512); do echo "$((i % 256 + 1)) -$((i % 7 + 250)) 3 -4 0"; done; }
told() { # what is tried, the line it must write; the text from standard input
    strip_of >"$room/out" 2>"$room/err" || { echo "$1: status $?"; exit 1; }
    same "$1" "$(cat "$room/err")" "$2"
    same "$1, its lines and bytes" "$(wc -l <"$room/err") $(wc -c <"$room/out")" "1 0"
}
same "3 1 2 3 0" "$(echo 3 1 2 3 0 | strip_of | od -An -tx1 | tr -d ' \n')" "50000347540001540002540003455a"
same "3 1 2 3 0, and layout" "$(echo 3 1 2 3 0 | strip_of | "$layout")" "$(cat crates/layout/stdout)"
same "the longest table" "$(longest_table | strip_of | wc -c)" 7172
same "the longest table, and layout" "$(longest_table | strip_of | "$layout" | head -n 1)" "no layout"
echo 3 1 2 x 0 | told "a word that is no number" "no valid number at byte 6"
echo 3 1 70000 0 | told "a number of more than 16 bits" "no valid number at byte 4"
printf '' | told "an empty text" "no valid number at byte 0"
echo 2 1 -3 0 | told "an unknown placement" "refused 5 1 1"
echo 2 1 0 0 2 -3 0 | told "an unknown placement in the third group" "refused 5 4 3"
echo 257 | told "too many placements" "refused 1 0"
echo 3 1 0 -3 0 | told "an unnamed placement" "refused 26 0"
yes 1 | told "a text without end" "text too long at byte 32768"
echo "as stored"

# both, where reading or writing fails, or with an argument
step "what can't be read or written"
for program in layout strip_of; do
    same "$program, a folder" "$("$prefix/bin/$program" 2>&1 <"$room")" "can't read standard input: Is a directory"
    same "$program, a full disk" "$(echo 3 1 2 3 0 | "$prefix/bin/$program" 2>&1 >/dev/full)" \
        "can't write standard output: No space left on device"
    same "$program, an argument" "$("$prefix/bin/$program" --help 2>&1 </dev/null | head -c $((${#program} + 7)))" \
        "$program: reads"
done
echo "said"

# the stored cases on a build with the sanitizers, and one search by the installed program
step "the command"
grep -qF "\"platewright $(sed -n 's/^#define PLATEWRIGHT_VERSION "\(.*\)"$/\1/p' include/platewright.h)\"" \
    command/platewright.1 || { echo "the man page has another version than the header"; exit 1; }
mkdir "$room/command"
(
    cd command
    printf '%s\n' ./*.cpp | xargs -P "$(nproc)" -I{} \
        g++ -std=c++17 "${sanitized[@]}" -pthread "${with[@]}" -c {} -o "$room/command/{}.o"
)
g++ "${sanitized[@]}" -pthread "$room"/command/*.o "$archive" -o "$room/command/platewright"
tests/command/run.sh "$room/command/platewright" >"$room/command.log" || { cat "$room/command.log"; exit 1; }
tr '\n' ';' <"$room/command.log"
same "the installed command" "$(echo 3 1 2 3 0 | "$prefix/bin/platewright" search)" \
    $'laid out\nsplits 1\ntaken 3\ntrail -1'
rm "$room/command/main.cpp.o" "$room/command/usage.cpp.o"
g++ -std=c++17 "${sanitized[@]}" "${with[@]}" -Icommand tests/command/fuzz.cpp "$room"/command/*.o "$archive" \
    -o "$room/fuzz"
"$room/fuzz" >"$room/fuzz.log" 2>&1 || { cat "$room/fuzz.log"; exit 1; }
tail -n 1 "$room/fuzz.log"

step "names in the documents"
python3 tests/names.py

step uninstall
./install.sh --uninstall "$prefix" >/dev/null
same "what is left" "$(find "$prefix" -mindepth 1)" ""
echo "nothing left"
