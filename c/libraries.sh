#!/usr/bin/env bash
# c/libraries.sh [NAME ..] : compiles the libraries that c/build.sh links a driver with, unless they are there, and prints their folder. They are host, explore, serve, fuzz, libfuzzer,
# orders and image; without a name all. CC is the compiler and CFLAGS are more words for it: objects are kept apart by them.
#
# They are kept in out/c of this tree. A tree without any takes what another one of the same sources made, from ~/.cache/kazdrin/host (XDG_CACHE_HOME). A tree that can't be written is
# used as it is, if nothing in it is older than its sources; else they are compiled in that cache.
set -eu
case ${1:-} in -h | --help) sed -n '2,/^[^#]/s/^#\( \|$\)//p' "$0"; exit ;; esac
here=$(CDPATH='' cd -- "$(dirname -- "$(readlink -f -- "$0")")" && pwd)
cc=${CC:-cc}
for tool in "${cc%% *}" make ar; do
    command -v "$tool" > /dev/null || {
        echo "c/libraries.sh: there is no $tool here: drivers in C need a C compiler, make and binutils (Debian: apt install build-essential)" >&2
        exit 2
    }
done
base=${XDG_CACHE_HOME:-${HOME:+$HOME/.cache}}
cache=${base:-/tmp/kazdrin-$(id -u)}/kazdrin
out=$here/../out/c
words=("CC=$cc" "CFLAGS=${CFLAGS:-}")
[ $# = 0 ] || words+=("LIBRARIES=$*")
# Its jobs are its own, also where another make is the caller.
make=(env -u MAKEFLAGS -u MFLAGS -u MAKELEVEL make -s --no-print-directory "-j$(nproc)" -C "$here")
if ! mkdir -p "$out" 2> /dev/null || [ ! -w "$out" ]; then
    if "${make[@]}" -q libraries "${words[@]}" 2> /dev/null; then
        echo "$out/$("${make[@]}" key "${words[@]}")"
        exit
    fi
    out=$cache/$(echo "$here" | sha256sum | cut -c1-12)
    mkdir -p "$out" 2> /dev/null || {
        echo "c/libraries.sh: nothing can be written to $here/../out/c, nor to $cache" >&2
        exit 3
    }
    ln -sfn "$here" "$out/src"
    make=("${make[@]::${#make[@]}-1}" "$out" -f src/Makefile SRC=src OUT=.)
fi
folder=$out/$("${make[@]}" key "${words[@]}")
# Where all is made, and still there for the next tree, as many as ask are told so at once: .kept names the copy, which newer ones may have pushed out.
exec 9> "$out/.lock"
flock -s -w 1 9 || {
    echo 'c/libraries.sh: waiting for another build of the host' >&2
    flock -s 9
}
if [ -e "$folder/.kept" ] && { [ $# -gt 0 ] || [ -d "$(cat "$folder/.kept")" ]; } && "${make[@]}" -q libraries "${words[@]}" 2> /dev/null; then
    echo "$folder"
    exit
fi
flock 9

# The checksum of all that they are made of, but for the compiler and its words, which the folder's name has.
sum() {
    (cd "$here" && find adapt explore fuzz host image include orders serve wire Makefile ../docs/TOLD.md -type f -print0 | LC_ALL=C sort -z | xargs -0 sha256sum | sha256sum | cut -c1-20)
}
kept=''
if [ ! -d "$folder" ]; then
    kept=$cache/host/$(sum)-${folder##*/}
    if [ -d "$kept" ]; then
        cp -R "$kept" "$folder.new"
        find "$folder.new" -exec touch -r "$folder.new" {} +
        mv "$folder.new" "$folder"
        kept=''
    else
        [ "$*" = orders ] || echo "compiling the host: $(find "$here/host" -name '*.c' | wc -l) files, once" >&2
    fi
fi
rm -f "$folder/.kept"
"${make[@]}" libraries "${words[@]}" >&2
# What was made from nothing, and all of it in place of a part, is for the next tree; the four newest stay.
[ $# -gt 0 ] || [ -n "$kept" ] || kept=$cache/host/$(sum)-${folder##*/}
if [ -n "$kept" ] && [ ! -f "$kept/libkazdrin_libfuzzer.a" ] && mkdir -p "$cache/host" 2> /dev/null && [ -w "$cache/host" ]; then
    rm -rf "$kept.new"
    cp -R "$folder" "$kept.new"
    rm -rf "$kept"
    mv -T "$kept.new" "$kept"
    find "$cache/host" -mindepth 1 -maxdepth 1 -printf '%T@ %p\n' | sort -rn | tail -n +5 | cut -d' ' -f2- | xargs -r -d '\n' rm -rf --
fi
[ -z "$kept" ] || [ ! -f "$kept/libkazdrin_libfuzzer.a" ] || echo "$kept" > "$folder/.kept"
echo "$folder"
