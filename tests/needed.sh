#!/usr/bin/env bash
# Sees to it that what the tests need is installed: installs Debian's packages where something is missing, and says
# what can't be had.
set -eu
case ${TMPDIR:-/tmp} in
*[[:space:]]*) echo "TMPDIR has white space in it, which pkg-config can't hand on: $TMPDIR" >&2; exit 1 ;;
esac
packages=(gcc g++ libc6-dev binutils bsdutils diffutils python3 pkg-config)
packages+=(librapidcheck-dev libcli11-dev nlohmann-json3-dev)
missing=()
for package in "${packages[@]}"; do
    dpkg-query -W -f='${Status}' "$package" 2>/dev/null | grep -q 'install ok installed' || missing+=("$package")
done
[ ${#missing[@]} -eq 0 ] && exit 0
if ! command -v apt-get >/dev/null; then
    echo "missing, and there is no apt-get to install them: ${missing[*]}" >&2
    exit 1
fi
echo "installing ${missing[*]}"
if ! { apt-get update -qq && DEBIAN_FRONTEND=noninteractive apt-get install -y -qq "${missing[@]}"; } >/dev/null; then
    echo "missing, and could not be installed: ${missing[*]}" >&2
    exit 1
fi
