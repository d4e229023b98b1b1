#!/usr/bin/env bash
# c/tests/scripts/paging.sh [--whole] : volumes that cache. Random requests above an encryption layer and without it, compared with a plain list of the file's bytes, and at the end with those of the
# disk: 20 sessions, with --whole 300. A write, a flush and the lazy writer under every schedule, above that layer and above drivers with contexts; each call refused in turn; and by threads for a
# second.
set -u
WHOLE=${1:-}
. "$(dirname "$0")/tally.sh" paging
sessions=20
[ "$WHOLE" != --whole ] || sessions=300
build layer "$room/layer" $tests/drivers/layer.c
if command -v python3 > /dev/null; then
    $tests/scripts/paging.py "$room/layer" 1 "$sessions" > "$room/sessions" || { cat "$room/sessions"; false; }
    tell $? "$sessions sessions beside a list of bytes"
fi
. "$(dirname "$0")/layer.sh"
build "drivers for the explorer" --explore "$room/explore" $tests/drivers/layer.c c/samples/{cipher,ctx}.c
run=("$room/layer") explore=("$room/explore")
layer_ways '' --states
for driver in layer cipher ctx; do
    found "a write, a flush and the lazy writer, without a bound, above $driver" --bound all <<'CLIENTS'
client w: write a 0 4142
client f: flush a
client l: lazy
finally: create v0 existing a as b; read b 2 4; expect bytes 61696e20
CLIENTS
done
driver=layer
found "a write, a flush, a read and the lazy writer" --bound 1 <<'CLIENTS'
client w: write a 0 4142
client f: flush a
client r: read a 4 4
client l: lazy
finally: create v0 existing a as b; read b 2 4; expect bytes 61696e20
CLIENTS
finish
