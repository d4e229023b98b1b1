#!/usr/bin/env bash
# c/tests/orders/build.sh PROGRAM : builds answers.c above the library of c/orders and the manager's archive (KAZDRIN_LIB, as for c/build.sh); CFLAGS are more words for the compiler.
set -eu
case ${1:-} in -h | --help) sed -n '2,/^[^#]/s/^#\( \|$\)//p' "$0"; exit ;; esac
c=$(CDPATH='' cd -- "$(dirname -- "$0")/../.." && pwd)
library=${KAZDRIN_LIB:-$c/../crates/kazdrin_c/out/libkazdrin_c.a}
[ -f "$library" ] || library=$("$c/archive.sh" --unproved)
support=$("$c/archive.sh" --support)
read -r -d '' -a words <<< "${CFLAGS:-}" || true
${CC:-cc} -std=gnu11 -Wall -Wextra -Werror "${words[@]}" -I"$c" -o "$1" "$c/tests/orders/answers.c" "$("$c/libraries.sh" orders)/libkazdrin_orders.a" "$library" "$support/libos_c.a" "$support/liblibc_c.a"
