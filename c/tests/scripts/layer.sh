#!/usr/bin/env bash
# For paging.sh and image.sh: an encryption layer above a cache, as a source and as a binary. `run` and `explore` are the programs that have it, with the words before those of a test; tally.sh came before.
# shellcheck disable=SC2154 # both are the caller's, as are tell, room and tests

# found NAME WORD..: nothing is found in the scenario that goes on with the lines of the standard input, above that layer, or above what `driver` says.
found() {
    local name=$1
    shift
    { printf 'volume v0 cached\nload %s\nattach %s v0 140000 as l\ncreate v0 new a as a\nwrite a 0 506c61696e2074657874\n' "${driver:-layer}" "${driver:-layer}"; cat; } > "$room/scenario"
    "${explore[@]}" "$@" "$room/scenario" > "$room/out" 2>&1 && grep -q 'told 0, races 0, stuck 0, crashed 0' "$room/out" || { cat "$room/out"; false; }
    tell $? "$name"
}

# layer_ways HOW WORD..: in order; beside the lazy writer under the schedules that the words ask for; each call refused in turn; by threads for a second.
layer_ways() {
    local how=$1
    shift
    "${run[@]}" "$tests"/requests/layer.txt > "$room/out" 2>&1 || { cat "$room/out"; false; }
    tell $? "the layer in order$how"
    found "a write beside the lazy writer$how" "$@" <<'CLIENTS'
client w: write a 0 4142
client l: lazy
finally: create v0 existing a as b; read b 2 4; expect bytes 61696e20
CLIENTS
    found "each call refused$how" --fail-each <<'CLIENTS'
client w: write a 0 4142; flush a; lazy; close a
client r: create v0 existing a as b; read b 4 4
CLIENTS
    printf 'volume v0 cached\nload layer\nattach layer v0 140000 as l\ncreate v0 new a as a\nwrite a 0 506c61696e2074657874\nclient w: write a 0 4142\nclient f: flush a\nclient r: read a 4 4\nclient l: lazy\n' > "$room/load"
    "${run[@]}" --load "$room/load" --threads 4 --seconds 1 > "$room/out" 2>&1 || { cat "$room/out"; false; }
    tell $? "the layer by threads$how"
}
