#!/usr/bin/env bash
# indirect.sh FOLDER : each call through a pointer in the host's objects of that folder is one of a driver's function, by KZ_CALL_DRIVER, or of the host's own: a call that forgets the
# convention of a binary is found here. Programs beside a driver (host/user) are sources, and no binaries. A pointer of the host's own has one of the names in OWN, or stands in one of its
# TABLES.
set -eu
cd "$(dirname "$0")/../.."
TABLES='kz_scheduler|kz\.store|kz\.observer|kz\.modules\[count\]|\(\*one\)'
OWN='inside|perform|put|give|part|turn|done|say|step|begin|end|can|is_over|go_on|host|life|sa_sigaction|on_told|sink|ask|serve|takes'
places=$(find "$1/host" -name '*.o' ! -path '*/user/*' -print0 | xargs -0 -n 1 objdump -dl --no-show-raw-insn |
    awk '/^[^ \t].*host\/.*:[0-9]+/ { place = $1 } /[ \t]call +[*]/ { print place }' | sed 's,.*/c/,,; s,^\./,,' | LC_ALL=C sort -u)
status=0
[ "$(echo "$places" | wc -l)" -gt 100 ] || { echo "indirect.sh: there are no calls through pointers in $1: has the compiler another way to say where they are?"; exit 1; }
for place in $places; do
    line=$(sed -n "${place##*:}p" "${place%:*}")
    echo "$line" | grep -qE "($TABLES)->|\bdigest->(begin|add|end)\)|\bcrypto\.|KZ_CALL_DRIVER|kz_binaries\.|\b($OWN)\(" || { echo "$place calls through a pointer that nobody knows: $line"; status=1; }
done
exit "$status"
