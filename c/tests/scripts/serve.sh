#!/usr/bin/env bash
# c/tests/scripts/serve.sh [PART ..] : the server of drivers. It is built of the drivers in c/tests/serve/drivers with the address and undefined sanitizers. The same frames must bring the
# same bytes as from fltd, and the mount's tests pass above it: the parts calls, folders, model, deletions, held, ends, late (creates and deletions that are held), layered (an encryption
# layer above a volume that caches) and safe (safe writes that are killed), or those that are named.
# FLTD is the server to compare with (else crates/fltd/out/fltd, or one without proofs), COUNT how many random frames a script has (300).
set -u
. "$(dirname "$0")/tally.sh" serve
command -v python3 > /dev/null || {
    untried 'there is no python3 here'
    exit
}
fltd=$(server_of_mount)
cp $tests/serve/drivers/*.c "$room"
# Two more that the mount's tests name.
cp c/samples/passthrough.c "$room/meter.c"
cp c/samples/nullfilter.c "$room/carry.c"
cp $tests/drivers/layer.c "$room"
words=()
if has_sanitizers address,undefined; then
    words=("--sanitize=address,undefined")
else
    echo "serve: left out: the sanitizers, which cc hasn't here"
fi
c/build.sh --serve "${words[@]}" "$room/server" "$room"/*.c || exit 2
status=0
$tests/serve/frames.py --count "${COUNT:-300}" "$fltd" "$room/server" || status=1
c/build.sh --serve "$room/plain" "$room"/*.c || exit 2
$tests/serve/rows.py "$room/plain" || status=1
$tests/serve/touches.py "$room/plain" || status=1
$tests/serve/limits.py ${KAZDRIN_QUICK:+--without many_names,many_deleted} "$room/plain" || status=1
# A server in Rattle dies by SIGXFSZ, waits in a FIFO that is swapped in, and has no list beside a name that isn't UTF-8 (docs/SERVER.md). One that is refused memory may end a connection.
$tests/serve/limits.py --only abandoned "$fltd" || status=1
if why=$(may_mount); then
    make -s -C c fltmount PROGRAM="$room/fltmount" CFLAGS="-O1 ${words:+-fsanitize=address,undefined -fno-sanitize-recover=undefined}" || exit 2
    [ $# -gt 0 ] || set -- calls cases folders model deletions held ends late layered safe
    $tests/mount/check.py --server "$room/server" --mount "$room/fltmount" --count 600 --renames all --wide "$@" || status=1
else
    untried "$why, for the mount above it" || status=1
fi
exit "$status"
