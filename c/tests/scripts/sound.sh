#!/usr/bin/env bash
# c/tests/scripts/sound.sh [COUNT [FIRST]] : nothing is lost by what the default search leaves out. It has the ends of --whole, each of them and no other:
#   - for each scenario of c/tests and c/samples, at a bound at which --whole ends soon;
#   - for COUNT random scenarios from number FIRST on, 500 from 1 on without the words (c/tests/sound/draw.py).
# And steps that are taken to come to the same in either order do, by --commute: of those scenarios, of each driver of c/tests and c/samples with four clients, above a volume that caches as well,
# and of a driver that calls what is taken to touch nothing that others have.
set -u
case ${1:-} in -h | --help) sed -n '2,/^[^#]/s/^#\( \|$\)//p' "$0"; exit ;; esac
COUNT=${1:-500}
FIRST=${2:-1}
. "$(dirname "$0")/tally.sh" sound
sound=$tests/sound

# ends WORD..: what a search finds, each end in a line, without the numbers in which two of the same differ. It has to come to its end.
ends() {
    rm -f "$room/learned"
    "$program" "$@" --learn "$room/learned" "$room/scenario" > "$room/out" 2>&1 && awk -v RS= '{ gsub(/\n/, "|"); gsub(/operation [0-9]+/, "operation N"); print }' "$room/learned" | sort -u || { cat "$room/out"; false; }
}
# compared 'PROGRAM BOUND SCENARIO DRIVER': both searches find the same, and something.
compared() {
    local program bound scenario name words
    read -r program bound scenario name <<< "$1"
    program=$built/$program
    sed "s/DRIVER/$name/" "$scenario" > "$room/scenario"
    read -r -a words <<< "--bound $bound $(sed -n 's/^# words: //p' "$scenario" | sed 's/--fail-each/--fails 1/' | grep -oE -e '--(workers|late|fails) [0-9]+|--inline|--coarse' | tr '\n' ' ')"
    ends "${words[@]}" --whole > "$room/whole" && ends "${words[@]}" > "$room/found" && [ -s "$room/whole" ] && diff "$room/whole" "$room/found"
    tell $? "$name by $scenario"
    [ "${program##*/}" = schedules ] || commute 300 "${words[@]}"
}
# Of the steps of a scenario each pair that is drawn comes to the same in both orders, if it is taken to.
commute() {
    "$program" --commute "$@" "$room/scenario" > "$room/pairs" && grep -q '^[0-9]* pairs, .* 0 of them wrongly$' "$room/pairs" || { cat "$room/pairs"; false; }
    tell $? "$name, steps in both orders,"
}
# With four clients; with more random scenarios there are more pairs.
paired() {
    local kind=$1 name scenario program=$built/$1 pairs=$((COUNT > 500 ? 1000 : 60))
    for name in $(names_of "$kind"); do
        for scenario in four-clients cached-clients; do
            sed "s/DRIVER/$name/" "$tests/scenarios/$scenario.txt" > "$room/scenario"
            commute $pairs
        done
    done
}
own() {
    local program=$built/own name="own, group $1"
    sed "s/GROUP/$1/" "$sound/own.txt" > "$room/scenario"
    commute 600
    grep -q ' [1-9][0-9]* are taken to' "$room/pairs"
    tell $? "own, group $1, of which some are taken to,"
}
drawn() {
    local begin=$1 count=$((COUNT / PARTS))
    "$sound/draw.py" "$built/drawn" $((FIRST + begin * count)) $count > "$room/drawn" && grep -q ' comparisons, [1-9]' "$room/drawn" || { cat "$room/drawn"; false; }
    tell $? "random scenarios from $((FIRST + begin * count)) on"
}

# The drivers of a folder; and those that don't refuse such a set-up, and come to an end in it.
sources_of() {
    local folder=$tests/$1
    [ "$1" != samples ] || folder=c/samples
    printf '%s\n' "$folder"/*.c "$folder"/*.cpp | grep -v '[*]'
}
names_of() {
    sources_of "$1" | sed 's,.*/,,; s,\..*,,' | grep -vxE 'ownio|refused|forever|spins'
}

# A scenario's driver, by its first load.
driver_of() {
    sed -n 's/^\(.*: \)\?load \([a-z]*\).*/\2/p' "$1" | head -n 1
}
of_schedules=()
for scenario in "$tests"/scenarios/*.txt; do
    name=$(driver_of "$scenario")
    [ -f "$tests/misuse/schedules/$name.c" ] || continue
    case $name in
        byclock | unknownwait) ;; # no search of them ends as the other does: they end as a limit
        barriers | teardowns) of_schedules+=("schedules 1 $scenario $name") ;;
        *) of_schedules+=("schedules 3 $scenario $name") ;;
    esac
done
others=()
for driver in c/samples/*.c; do
    others+=("samples 1 $tests/scenarios/four-clients.txt $(basename "$driver" .c)")
done
for scenario in "$tests"/scenarios/programs/*.txt; do
    case $scenario in *-load.txt | *-refusals.txt) ;; *) others+=("samples 1 $scenario $(basename "$scenario" .txt)") ;; esac
done
for scenario in "$tests"/legal/*.scenario "$tests"/misuse/*.scenario; do
    others+=("$(basename "$(dirname "$scenario")") 1 $scenario $(basename "$scenario" .scenario)")
done
users=(--user)
for user in c/samples/user/*.c; do
    users+=("$user" --user)
done
unset 'users[-1]'
build "drivers of schedules" --explore "$room/schedules" "$tests"/misuse/schedules/*.c
build "samples" --explore "$room/samples" c/samples/*.c "${users[@]}"
for kind in legal misuse drivers; do
    mapfile -t sources < <(sources_of $kind)
    build "those of $kind" --explore "$room/$kind" "${sources[@]}"
done
build "drivers that are drawn for" --explore "$room/drawn" "$sound/drawn" "$sound/portbusy.c" --user "$sound/program.c"
rows compared "drawn 2 $sound/portbusy.txt portbusy" "${of_schedules[@]}" "${others[@]}"

rows paired samples legal misuse drivers

# A port's callback that is over, and another that begins: what is found is what portbusy.txt says.
"$room/drawn" --bound 2 "$sound/portbusy.txt" > "$room/out"
[ $? = 5 ] && grep -q "^    $(finds_of "$sound/portbusy.txt")" "$room/out"
tell $? "an unload that goes on between two callbacks of a port"

# Of the scenarios in which a waiter is stopped again no mistake is lost without a bound either.
unbound() {
    local program=$built/schedules
    "$program" --bound all "$tests/scenarios/$1.txt" > "$room/out"
    [ $? = 5 ] && grep -q "^    $(finds_of "$tests/scenarios/$1.txt")" "$room/out"
    tell $? "$1 without a bound"
}
rows unbound starves setandcleared setandtaken

build "a driver of own calls" --explore "$room/own" "$sound/own.c"
rows own {0..14}
PARTS=$((COUNT < 10 ? 1 : 10))
mapfile -t parts < <(seq 0 $((PARTS - 1)))
rows drawn "${parts[@]}"
finish
