#!/usr/bin/env bash
# The lists of crates/test_recorder/src/order.rt and those of tests/model/lists.py through the host: c/tests/drivers/recorder.c under each name that a list loads plays each list, and what
# the filters see, request by request, is compared with what stands there.
set -u
. "$(dirname "$0")/tally.sh" order
tests/model/lists.py --constant RANDOM > "$room/random" || finish
awk -v room="$room" '
    /^pub const / { on = 1; next }
    /^";/ { on = 0 }
    on && /^# / { close(file); file = sprintf("%s/%03d.list", room, ++count) }
    on && NF { print > file }' crates/test_recorder/src/order.rt "$room/random"
drivers=()
while read -r name; do
    cp $tests/drivers/recorder.c "$room/$name.c"
    drivers+=("$room/$name.c")
done < <(sed -n 's/^load //p' "$room"/*.list | sort -u)
build recorder "$room/recorders" "${drivers[@]}"
for list in "$room"/*.list; do
    { echo 'volume 0 uncached'; grep -v '^saw ' "$list"; } > "$list.txt" # the other managers have no cache
    # What is held to the end stays held there on purpose.
    "$room/recorders" --allow KZ0111 "$list.txt" > "$list.out" 2>&1
    status=$?
    { head -n 1 "$list"; sed -n '/^> volume /d; s/^> //p; /^saw /p' "$list.out"; } > "$list.seen"
    [ "$status" = 0 ] && diff "$list" "$list.seen" || { grep -E '^(unmet|TOLD|LIMIT)' "$list.out"; false; }
    tell $? "$(head -n 1 "$list"), with status $status,"
done
finish
