#!/usr/bin/env bash
# c/archive.sh [--unproved] : with --unproved an archive from the sources alone, without proofs and with run-time checks, in a minute; its path is printed, and c/build.sh takes it
# where there is no proved one. Without that word it makes crates/kazdrin_c/out/libkazdrin_c.a. `rt ci` leaves the libraries of the crates below in this checkout: over them the crate is proved once
# more, and built, in some five minutes of a processor. Without them `rt lib` proves every crate below first. With --support it prints where the kit keeps what the archive is
# linked with.
set -eu
case ${1:-} in -h | --help) sed -n '2,/^[^#]/s/^#\( \|$\)//p' "$0"; exit ;; esac
here=$(CDPATH='' cd -- "$(dirname -- "$0")" && pwd)
if [ "${1:-}" = --unproved ]; then
    exec "$here/../tools/unproved" --archive
fi
kit=$(dirname "$(dirname "$(readlink -f "$(command -v rt)")")")
if [ "${1:-}" = --support ]; then
    echo "$kit/c"
    exit 0
fi
cd "$here/../crates/kazdrin_c"
words=()
for name in std $(sed -n 's/^kazdrin_c staticlib: *//p' ../../crates.txt); do
    library=../$name/out/rlib/$name.rlib
    [ -d "../$name" ] || library=$kit/rlibs/$name.rlib
    [ -d "$library" ] || exec rt lib
    words+=(--extern "$name=$library")
done
for folder in ../*/out/rlib; do
    words+=(-L "dependency=$folder")
done
mkdir -p out
"$kit/bin/rattle" build --crate-name kazdrin_c src/lib.rt --crate-type staticlib "${words[@]}" -L "dependency=$kit/rlibs" --links kazdrin_c= \
    --antt-project "$kit/rattle/logic/antt-project.json" --logic-built "$kit/logic_built" --toolchain "$kit/toolchain" --backend llvm -o out/libkazdrin_c.a
