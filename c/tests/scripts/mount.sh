#!/usr/bin/env bash
# c/tests/scripts/mount.sh [PART ..] : the mount's tests, all parts or those of c/tests/mount/PART.py. fltmount, with the address and undefined sanitizers, is tested above a server: calls
# one by one, modes and the folder below, random operations beside a model, deletions beside looks, held readers, ends of instances, volumes and servers, sqlite, fio and others.
# FLTD is the server (else crates/fltd/out/fltd, or one without proofs), COUNT how many random operations there are (900). Where nothing can be mounted it says so and tries nothing.
set -u
. "$(dirname "$0")/tally.sh" mount
"c/tests/scripts/needs.sh"
why=$(may_mount) || {
    untried "$why"
    exit
}
server=$(server_of_mount)
words=""
if has_sanitizers address,undefined; then
    words="-O1 -fsanitize=address,undefined -fno-sanitize-recover=undefined"
else
    echo "mount: left out: the sanitizers, which cc hasn't here"
fi
make -s -C c fltmount PROGRAM="$room/fltmount" CFLAGS="$words" || exit 2
$tests/mount/check.py --server "$server" --mount "$room/fltmount" --count "${COUNT:-900}" --renames copied "$@"
