#!/usr/bin/env bash
# c/loader.sh [explore | serve | orders] : builds the program of host and loader by which binaries of drivers are run, searched or served, unless it is there, and prints its path; or that of
# c/orders. It needs neither a compiler nor the kit where it runs. KAZDRIN_LIB is the manager's archive, as for c/build.sh.
set -eu
case ${1:-} in -h | --help) sed -n '2,/^[^#]/s/^#\( \|$\)//p' "$0"; exit ;; esac
here=$(CDPATH='' cd -- "$(dirname -- "$(readlink -f -- "$0")")" && pwd)
kind=${1:-}
library=${KAZDRIN_LIB:-$here/../crates/kazdrin_c/out/libkazdrin_c.a}
[ -f "$library" ] || library=$("$here/archive.sh" --unproved)
file=kazdrin-image${kind:+-$kind}
parts=()
[ "$kind" != orders ] || file=kazdrin-orders parts=(orders)
host=$("$here/libraries.sh" "${parts[@]}")
folder=$host
program=$folder/$file

# An archive without proofs is written anew, faster, under the same name, and another user has a copy of it: it is known by its content.
is_made() {
    local part
    [ -x "$program" ] && [ "$(cat "$program.archive" 2> /dev/null)" = "$(cksum < "$library")" ] || return
    for part in "$host"/*.a "$here/build.sh"; do
        [ ! "$part" -nt "$program" ] || return
    done
}
is_made && {
    echo "$program"
    exit
}
# A tree that can't be written has it in the user's cache.
if [ ! -w "$folder" ]; then
    base=${XDG_CACHE_HOME:-${HOME:+$HOME/.cache}}
    folder=${base:-/tmp/kazdrin-$(id -u)}/kazdrin/loaders/$(echo "$host" | sha256sum | cut -c1-12)
    mkdir -p "$folder" 2> /dev/null || {
        echo "c/loader.sh: nothing can be written to $host, nor to $folder" >&2
        exit 3
    }
    program=$folder/$file
fi
make_program() {
    if [ "$kind" != orders ]; then
        KAZDRIN_LIB=$library "$here/build.sh" ${kind:+"--$kind"} --image "$1" >&2
        return
    fi
    local words support=${library%/*}
    read -r -d '' -a words <<< "${CFLAGS:-}" || true
    [ -f "$support/liblibc_c.a" ] || support=$("$here/archive.sh" --support)
    ${CC:-cc} "${words[@]}" -o "$1" "$host/libkazdrin_orders.a" "$library" "$support/libos_c.a" "$support/liblibc_c.a"
}
exec 9> "$folder/.lock-$file"
flock 9
if ! is_made; then
    make_program "$program.new" 9>&-
    mv "$program.new" "$program"
    cksum < "$library" > "$program.archive"
fi
echo "$program"
