#!/usr/bin/env bash
# Proves and builds the library and the programs, and installs them for the shell, C, C++ and Python; see usage.
set -eu

usage() {
    cat <<'END'
usage: ./install.sh PREFIX              proves, builds and installs below the folder PREFIX
       ./install.sh --uninstall PREFIX  removes what was installed there, and no other file
       ./install.sh --help

Installed are
    include/platewright.h                      every operation, for C and C++
    lib/libplatewright.a, libplatewright.so    the library, static and shared
    lib/pkgconfig/platewright.pc               for pkg-config --cflags --libs platewright
    share/platewright/python/platewright.py    every operation, for Python; it finds the shared library by itself
    share/platewright/installed.txt            the list of what was installed, for --uninstall
    bin/platewright, share/man/man1            the command, and its man page
    bin/layout, bin/strip_of                   the older programs

Needed are rt (the Rattle kit), gcc and g++, Debian's packages libcli11-dev and nlohmann-json3-dev (which are installed
where they are missing and that is allowed), and room to write in PREFIX. The output of the proofs goes to
target/install.log.
With DESTDIR in the environment all files go below DESTDIR/PREFIX, and are made to be used in PREFIX.
END
}

fail() { # what is wrong
    echo "install.sh: $1" >&2
    exit 1
}

here=$(cd "$(dirname "$0")" && pwd)
version=$(sed -n 's/^#define PLATEWRIGHT_VERSION "\(.*\)"$/\1/p' "$here/include/platewright.h")
major=${version%%.*}
shared=libplatewright.so
list=share/platewright/installed.txt
log=$here/target/install.log
build=$here/target/install

files() { # all that is installed, below PREFIX
    printf '%s\n' "$list" include/platewright.h lib/libplatewright.a "lib/$shared.$version" "lib/$shared.$major" \
        "lib/$shared" lib/pkgconfig/platewright.pc share/platewright/python/platewright.py bin/platewright \
        share/man/man1/platewright.1 bin/layout bin/strip_of
}

folders() { # outer ones first; the first is PREFIX itself
    printf '%s\n' . include lib lib/pkgconfig share share/platewright share/platewright/python share/man \
        share/man/man1 bin
}

# PREFIX as a whole path, and the folder that it is now (below DESTDIR, where that is set).
locate() { # PREFIX
    [ -n "$1" ] || fail "PREFIX is empty"
    prefix=$(realpath -m -- "$1")
    [[ $prefix != *[[:space:]]* ]] || fail "PREFIX has white space in it, which pkg-config can't hand on: $prefix"
    root=${DESTDIR:+$(realpath -m -- "$DESTDIR")}$prefix
}

installed_before() { # a path below PREFIX
    [ -f "$root/$list" ] && grep -qxF -- "$1" "$root/$list"
}

has_headers() { # the command's: options, JSON
    printf '#include <CLI/CLI.hpp>\n#include <nlohmann/json.hpp>\n' | g++ -std=c++17 -E -x c++ - >/dev/null 2>&1
}

look_for_headers() {
    local packages=(libcli11-dev nlohmann-json3-dev)
    has_headers && return
    if [ "$(id -u)" = 0 ] && command -v apt-get >/dev/null; then
        echo "installing ${packages[*]}"
        { apt-get update -qq && DEBIAN_FRONTEND=noninteractive apt-get install -y -qq "${packages[@]}"; } \
            >/dev/null 2>&1 || true
    fi
    has_headers || fail "missing, and could not be installed: ${packages[*]}"
}

# Says what is missing before anything is proved.
look_first() {
    local missing=() above=$root path probe
    for program in rt gcc g++; do command -v "$program" >/dev/null || missing+=("$program"); done
    [ ${#missing[@]} -eq 0 ] || fail "not found: ${missing[*]}"
    while [ ! -e "$above" ]; do above=$(dirname "$above"); done
    [ -d "$above" ] || fail "not a folder: $above"
    probe=$(mktemp -d -- "$above/.install.XXXXXX" 2>/dev/null) || fail "can't write in $above"
    rmdir "$probe"
    for path in $(folders); do
        [ ! -e "$root/$path" ] || [ -d "$root/$path" ] || fail "not a folder: $root/$path"
        [ ! -e "$root/$path" ] || [ -w "$root/$path" ] || fail "can't write in $root/$path"
    done
    for path in $(files); do
        [ ! -e "$root/$path" ] && [ ! -L "$root/$path" ] || installed_before "$path" ||
            fail "$root/$path is there, and was not installed by this script: remove it, or take another PREFIX"
    done
    look_for_headers
}

logged() { # a command; its output goes to the log, and is shown if it fails
    echo "+ $*" >>"$log"
    "$@" >>"$log" 2>&1 || {
        tail -n 40 "$log" >&2
        fail "'$*' failed; all of its output is in $log"
    }
}

build_command() { # each source by itself, so that two cores share them
    rm -rf "$build/command" && mkdir -p "$build/command" &&
    printf '%s\n' command/*.cpp | xargs -P "$(nproc)" -I{} sh -c \
        'g++ -std=c++17 -O2 -Wall -Wextra -pthread -Iinclude -c "$1" -o "$2/$(basename "$1").o"' compile {} "$build/command" &&
    g++ -pthread "$build"/command/*.o target/staticlib/libplatewright.a -o "$build/platewright"
}

build_all() {
    cd "$here"
    mkdir -p "$build"
    : >"$log"
    echo "proving and building, which takes some minutes; the output goes to $log"
    logged tools/build.sh platewright layout strip_of
    printf '{ global: platewright_*; local: *; };\n' >"$build/exports"
    logged gcc -shared -o "$build/$shared" -Wl,-soname,"$shared.$major" -Wl,--version-script="$build/exports" \
        -Wl,-z,defs,-z,noexecstack,-z,relro,-z,now \
        -Wl,--whole-archive target/staticlib/libplatewright.a -Wl,--no-whole-archive
    logged build_command
    cat >"$build/platewright.pc" <<END
prefix=$prefix
libdir=\${prefix}/lib
includedir=\${prefix}/include

Name: platewright
Description: Platewright's exact-one layout search
Version: $version
Libs: -L\${libdir} -lplatewright
Cflags: -I\${includedir}
END
}

# The list is there before the files, so that an installation that is cut short can be removed. A folder is listed, with
# a closing slash, where it was made here.
copy_all() {
    local made="" folder
    for folder in $(folders); do
        [ -d "$root/$folder" ] || made="$folder/"$'\n'"$made"
        mkdir -p "$root/$folder"
    done
    { files; printf '%s' "$made"; } >"$root/$list"
    install -m 644 include/platewright.h "$root/include/"
    install -m 644 target/staticlib/libplatewright.a "$root/lib/"
    install -m 755 "$build/$shared" "$root/lib/$shared.$version"
    ln -sf "$shared.$version" "$root/lib/$shared.$major"
    ln -sf "$shared.$major" "$root/lib/$shared"
    install -m 644 "$build/platewright.pc" "$root/lib/pkgconfig/"
    install -m 644 python/platewright.py "$root/share/platewright/python/"
    install -m 644 command/platewright.1 "$root/share/man/man1/"
    install -m 755 "$build/platewright" target/bin/layout target/bin/strip_of "$root/bin/"
}

# Files first, then the folders that were made, inner ones first, where nothing else is in them. What Python keeps of
# platewright.py beside it goes too.
remove_all() {
    local line cache=$root/share/platewright/python/__pycache__
    [ -f "$root/$list" ] || fail "nothing of this script's is installed in $root: no $list there"
    rm -f "$cache"/platewright.*.pyc
    [ ! -d "$cache" ] || rmdir --ignore-fail-on-non-empty "$cache"
    mapfile -t lines <"$root/$list"
    for line in "${lines[@]}"; do
        case $line in
        */) [ ! -d "$root/$line" ] || rmdir --ignore-fail-on-non-empty "$(realpath "$root/$line")" ;;
        *) rm -f "${root:?}/$line" ;;
        esac
    done
}

tell() {
    echo "installed in $root:"
    files | sed 's/^/    /'
    cat <<END
to compile a program, with the shared library or with the static one:
    export PKG_CONFIG_PATH=$prefix/lib/pkgconfig
    gcc host.c \$(pkg-config --cflags --libs platewright) -Wl,-rpath,$prefix/lib -o host
    gcc host.c \$(pkg-config --cflags platewright) $prefix/lib/libplatewright.a -o host
for Python, and for the shell:
    export PYTHONPATH=$prefix/share/platewright/python
    export PATH=$prefix/bin:\$PATH
END
}

case "$#:${1-}" in
1:--help) usage ;;
1:-*) usage >&2; exit 2 ;;
1:*)
    locate "$1"
    look_first
    build_all
    if [ -f "$root/$list" ]; then remove_all; fi
    copy_all
    tell
    ;;
2:--uninstall)
    locate "$2"
    remove_all
    echo "removed from $root"
    ;;
*) usage >&2; exit 2 ;;
esac
