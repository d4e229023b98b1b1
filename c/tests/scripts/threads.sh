#!/usr/bin/env bash
# Drivers under real threads: some samples for a second with eight threads under the thread sanitizer, or with --whole all of them for ten. Nothing may be found; a counter without a
# lock must be.
set -u
WHOLE=${1:-}
. "$(dirname "$0")/tally.sh" threads
if ! has_sanitizers thread; then
    untried 'this compiler has no thread sanitizer'
    exit
fi
samples=(c/samples/ctx.c c/samples/cancelsafe.c c/samples/csqworkitem.c)
seconds=1
if [ "$WHOLE" = --whole ]; then
    samples=(c/samples/*.c)
    seconds=10
fi
loaded() {
    sed "s/DRIVER/$1/" $tests/scenarios/load.txt > "$room/load.txt"
    "$built/threads" --load "$room/load.txt" --threads 8 --seconds "$seconds" > "$room/out" 2>&1 || { cat "$room/out"; false; }
    tell $? "$1"
}
names=()
for sample in "${samples[@]}"; do
    names+=("$(basename "$sample" .c)")
done
build "all of them" --sanitize=thread "$room/threads" "${samples[@]}" $tests/misuse/schedules/counter.c
rows loaded "${names[@]}"
"$room/threads" --load $tests/scenarios/counter.txt --threads 2 --seconds 1 > "$room/counter.out" 2>&1
[ $? = 66 ] && grep -q "data race .*counter.c:11 in PreRead" "$room/counter.out"
tell $? "a counter without a lock"

# Two locks in two orders: sooner or later nobody goes on.
build lockorder "$room/lockorder" $tests/misuse/schedules/lockorder.c
"$room/lockorder" --load $tests/scenarios/lockorder.txt --threads 4 --seconds 20 > "$room/lockorder.out" 2>&1
[ $? = 6 ] && grep -q "waits for ExAcquireFastMutex of a lock that" "$room/lockorder.out"
tell $? "lockorder"
finish
