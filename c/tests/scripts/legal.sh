#!/usr/bin/env bash
# Right drivers: nothing is told of those in c/tests/legal by any scheduler: in order, by threads, under every schedule of a scenario with at most one preemption, with operations that go on inside
# their completion, with programs that change what is read of their buffers, and under schedules that are drawn by a coin and by priorities. Those with a scenario of their own are searched without a bound too. Requests and a scenario of a driver's own stand beside it (NAME.txt, NAME.scenario); else it
# gets those of all samples.
set -u
. "$(dirname "$0")/tally.sh" legal

# search NAME WORD..: nothing is found. All states may be too many: that search alone may be cut off, after ten seconds. Any other that isn't at its end after five minutes hangs, and fails.
search() {
    local name=$1 seconds=300 status=0
    shift
    [ "$1" != --states ] || seconds=10
    timeout $seconds "$built/explore" "$@" "$room/scenario" > "$room/out" || status=$?
    [ $status = 0 ] || { [ "$1" = --states ] && [ $status = 124 ]; } || { cat "$room/out"; false; }
    tell $? "$name under $*"
}
silent() {
    local name=$1 scenario=$tests/legal/$1.scenario
    [ -f "$scenario" ] || scenario=$tests/scenarios/four-clients.txt
    sed "s/DRIVER/$name/" "$scenario" > "$room/scenario"
    sed "s/DRIVER/$name/" $tests/scenarios/load.txt > "$room/load"
    [ ! -f "$tests/legal/$name.scenario" ] || cp "$room/scenario" "$room/load"
    "$built/legal" "$built/$name.requests" > "$room/out" || { cat "$room/out"; false; }
    tell $? "$name in order"
    "$built/legal" --fill "$built/$name.requests" > "$room/out" || { cat "$room/out"; false; }
    tell $? "$name under two fills"
    "$built/legal" --load "$room/load" --threads 4 --seconds 1 > "$room/out" 2>&1 || { cat "$room/out"; false; }
    tell $? "$name by threads"
    search "$name" --bound 1
    search "$name" --inline --bound 1
    search "$name" --changes 2 --bound 0
    search "$name" --seed 1 --runs 300
    search "$name" --seed 1 --runs 300 --pct 3
    [ ! -f "$tests/legal/$name.scenario" ] || search "$name" --states
}
drivers=("$tests"/legal/*.c)
build "all of them" "$room/legal" "${drivers[@]}"
build "all of them for the explorer" --explore "$room/explore" "${drivers[@]}"
names=()
for driver in "${drivers[@]}"; do
    name=$(basename "$driver" .c)
    requests=$tests/legal/$name.txt
    [ -f "$requests" ] || requests=$tests/legal/any.requests
    sed "s/DRIVER/$name/" "$requests" > "$room/$name.requests"
    names+=("$name")
done
rows silent "${names[@]}"
# Valgrind tells of what a try block takes too.
rm "$room"/{guarded,attached}.requests
look "all of them" "$room/legal" "$room"/*.requests
finish
