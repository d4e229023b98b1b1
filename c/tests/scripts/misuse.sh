#!/usr/bin/env bash
# Drivers of c/tests/misuse that have a scenario beside them (NAME.scenario): under threads, and under its schedules, the same is told as in order, with lines of the driver. The scenario's first lines
# say what: each is a set of numbers, or the first word of what the explorer finds.
set -u
. "$(dirname "$0")/tally.sh" misuse
found() {
    grep -oE '(TOLD KZ[0-9]+|USE AFTER|RACE|STUCK|CRASH)' "$1" | sed 's/^TOLD //; s/ .*//' | sort -u | tr '\n' ' ' | sed 's/ $//'
}
wanted() {
    sed -n "s/^# $1: //p" "$2"
}
# Who runs first is the system's: what one load didn't come to another one does.
loaded() {
    local name=$1 scenario=$2 wanted
    wanted=$(wanted threads "$scenario")
    for _ in 1 2 3 4 5; do
        "$built/misuse" --load "$scenario" --threads 1 --seconds 0.2 >> "$room/out" 2>&1
        [ $? = 5 ] || return 1
        [ "$(found "$room/out")" != "$wanted" ] || break
    done
    [ "$(found "$room/out")" = "$wanted" ] && ! grep '^TOLD' "$room/out" | grep -vq " $name\.c:[0-9]"
}
told() {
    local name=$1 scenario=$tests/misuse/$1.scenario
    loaded "$name" "$scenario" || { cat "$room/out"; false; }
    tell $? "$name by threads"
    "$built/explore" --bound 0 "$scenario" > "$room/out" 2>&1
    [ $? = 5 ] && [ "$(found "$room/out")" = "$(wanted explored "$scenario")" ] && ! grep '^    TOLD' "$room/out" | grep -vq " $name\.c:[0-9]" || { cat "$room/out"; false; }
    tell $? "$name under its schedules"
}
names=()
drivers=()
for scenario in "$tests"/misuse/*.scenario; do
    name=$(basename "$scenario" .scenario)
    names+=("$name")
    drivers+=("$tests/misuse/$name.c")
done
build "all of them" "$room/misuse" "${drivers[@]}"
build "all of them for the explorer" --explore "$room/explore" "${drivers[@]}"
rows told "${names[@]}"
finish
