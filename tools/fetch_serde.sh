#!/usr/bin/env bash
# Fetches serde and what tools/real_serde.py and tools/real_reader.py stand on, as sources, from Debian's packages into FOLDER/registry.
# Nothing is installed: apt works in FOLDER/apt alone, and checks the signatures of the release that it reads.
#
#     tools/fetch_serde.sh FOLDER [RELEASE]
#
# RELEASE is a release of Debian; the one that is taken where none is given has serde 1.0.217. The reader of attributes
# that is ported, serde_derive_internals 0.30.0, is in forky.
set -euo pipefail
if [ $# -lt 1 ] || [ $# -gt 2 ]; then
    echo "usage: fetch_serde.sh FOLDER [RELEASE]" >&2
    exit 2
fi
mkdir -p "$1"
folder="$(cd "$1" && pwd)"
release="${2:-trixie}"
keys=/usr/share/keyrings/debian-archive-keyring.gpg
crates="serde serde-core serde-derive serde-derive-internals serde-json proc-macro2 quote syn unicode-ident itoa ryu zmij memchr
    uuid chrono num-traits autocfg regex regex-automata regex-syntax aho-corasick"

mkdir -p "$folder"/apt/{state/lists/partial,cache/archives/partial,packages} "$folder/registry"
: >"$folder/apt/status"
echo "deb [signed-by=$keys] http://deb.debian.org/debian $release main" >"$folder/apt/sources.list"
apt() {
    command="$1"
    shift
    "$command" -q -o "Dir::State=$folder/apt/state" -o "Dir::State::status=$folder/apt/status" \
        -o "Dir::Cache=$folder/apt/cache" -o "Dir::Etc::sourcelist=$folder/apt/sources.list" \
        -o Dir::Etc::sourceparts=- -o "APT::Sandbox::User=$(id -un)" "$@"
}
apt apt-get update

# Not every release has each of them: serde_core came with serde 1.0.220, and serde_json has changed its writer of floats.
named="$(printf 'librust-%s-dev ' $crates)"
wanted="$({ apt apt-cache show $named 2>/dev/null || true; } | sed -n 's/^Package: //p' | sort -u)"
rm -f "$folder"/apt/packages/*.deb
(cd "$folder/apt/packages" && apt apt-get download $wanted)

rm -rf "$folder/unpacked" "$folder/registry"
for package in "$folder"/apt/packages/*.deb; do
    dpkg-deb -x "$package" "$folder/unpacked"
done
mv "$folder/unpacked/usr/share/cargo/registry" "$folder/registry"
rm -rf "$folder/unpacked"
ls "$folder/registry"
