#!/usr/bin/env bash
# c/tests/scripts/names.sh [--whole] : names, and operations of other major functions. Random requests about names beside a model of their own (200 sessions, with --whole 3,000); samples
# and drivers under each schedule of renames and notices with up to one preemption, with each call refused in turn, and by eight threads for a second.
set -u
WHOLE=${1:-}
. "$(dirname "$0")/tally.sh" names
sessions=200
seconds=1
if [ "$WHOLE" = --whole ]; then
    sessions=3000
    seconds=10
fi
scenarios=$tests/scenarios
if command -v python3 > /dev/null; then
    build model "$room/model" c/samples/passthrough.c c/samples/ctx.c
    $tests/scripts/names.py "$room/model" 1 "$sessions" > "$room/model.out" || { cat "$room/model.out"; false; }
    tell $? "$sessions sessions beside the model"
fi
# of DRIVER SCENARIO WORD..: nothing is found.
of() {
    local driver=$1 scenario=$2
    shift 2
    sed "s/DRIVER/$driver/" "$scenarios/$scenario.txt" > "$room/scenario"
    "$built/explore" "$@" "$room/scenario" > "$room/out" 2>&1 && grep -q "told 0, races 0, stuck 0, crashed 0" "$room/out" || { cat "$room/out"; false; }
    tell $? "$driver: $scenario"
}
searched() {
    case $1 in
    # What a filter asks by itself and what it pends: each schedule with no preemption, and each call refused.
    owner) of owner names --bound 0 ;;
    # A destination that one filter changed, while another one holds the rename and the first is detached.
    held) of "trail and owner" held-rename --bound 1 ;;
    *)
        of "$1" names --bound 1
        of "$1" notices --bound 1
        ;;
    esac
    [ "$1" = held ] || of "$1" names-refusals --fail-each
}
loaded() {
    sed "s/DRIVER/$1/" $scenarios/names-load.txt > "$room/load.txt"
    "$built/threads" --load "$room/load.txt" --threads 8 --seconds "$seconds" > "$room/out" 2>&1 || { cat "$room/out"; false; }
    tell $? "$1 by threads"
}
build "all of them for the explorer" --explore "$room/explore" c/samples/{ctx,trail,cipher,sectionguard}.c $tests/drivers/{majors,outcomes,owner}.c
rows searched ctx trail cipher sectionguard majors outcomes owner held
if has_sanitizers thread; then
    build "all of them for a load" --sanitize=thread "$room/threads" c/samples/{trail,cipher,sectionguard}.c
    rows loaded trail cipher sectionguard
fi
finish
