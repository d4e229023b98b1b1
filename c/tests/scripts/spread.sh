#!/usr/bin/env bash
# A search that is spread: over the processors of this machine by one word, by GNU parallel, and by shards that are merged. Each adds up to the same counts and kinds as one part that is all of it, which finds the kinds
# that the search of each schedule finds. And one that is interrupted goes on.
set -u
. "$(dirname "$0")/tally.sh" spread
schedules=$tests/misuse/schedules
scenarios=$tests/scenarios
for name in settwice lockorder; do
    build "$name" --explore "$room/$name" "$schedules/$name.c"
    cp "$scenarios/$name.txt" "$room"
done
build ctx --explore "$room/ctx" c/samples/ctx.c
sed 's/DRIVER/ctx/' $scenarios/four-clients.txt > "$room/ctx.txt"

# The counts of each bound, and each kind with its number.
seen() {
    sed 's/, [0-9.]* s, /, /' "$1" | grep -E '^(bound|no bound|seeds)'
    awk '/ schedules:$/ { text = $1; inside = 1; next } /^  the shortest:/ { print text; inside = 0; next } inside { text = text "|" $0 }' "$1" | sort
}
# one PROGRAM WANTED WORD..: what one part finds is wanted of more; each schedule by itself, of which there are more, finds the same kinds.
one() {
    local program=$room/$1 scenario=$room/$1.txt wanted=$2
    shift 2
    "$program" "$@" --shard 0/1 "$scenario" > "$room/one"
    seen "$room/one" > "$wanted"
    "$program" "$@" --whole "$scenario" > "$room/whole"
    [ "$(schedules "$room/one")" -lt "$(schedules "$room/whole")" ] && kinds "$room/one" | diff <(kinds "$room/whole") -
    tell $? "one part, $*"
}
schedules() {
    sed -nE 's/^(bound [0-9]*|no bound): ([0-9]*) schedules.*/\2/p' "$1" | tail -n 1
}
one settwice "$room/wanted" --ends --bound 3
"$room/settwice" --ends --bound 3 --jobs 2 "$room/settwice.txt" > "$room/jobs" && seen "$room/jobs" | diff "$room/wanted" -
tell $? "two jobs"
"$room/settwice" --ends --bound 3 --jobs 5 "$room/settwice.txt" > "$room/jobs" && seen "$room/jobs" | diff "$room/wanted" -
tell $? "five jobs"
one lockorder "$room/wanted.lo" --bound 2
"$room/lockorder" --jobs 3 "$room/lockorder.txt" > "$room/jobs"
[ $? = 6 ] && seen "$room/jobs" | diff "$room/wanted.lo" -
tell $? "jobs that find something"
"$room/lockorder" --bound all --shard 0/1 "$room/lockorder.txt" > "$room/one"
"$room/lockorder" --states "$room/lockorder.txt" > "$room/states"
seen "$room/one" > "$room/wanted.all" && kinds "$room/one" | diff <(kinds "$room/states") -
tell $? "one part, without a bound"
"$room/lockorder" --bound all --jobs 4 "$room/lockorder.txt" > "$room/jobs"
[ $? = 6 ] && seen "$room/jobs" | diff "$room/wanted.all" -
tell $? "jobs without a bound"
"$room/settwice" --ends --seed 5 --runs 300 "$room/settwice.txt" > "$room/seeds" && "$room/settwice" --ends --seed 5 --runs 300 --jobs 3 "$room/settwice.txt" > "$room/jobs" &&
    seen "$room/seeds" > "$room/wanted.seeds" && seen "$room/jobs" | diff "$room/wanted.seeds" -
tell $? "jobs of drawn schedules"

# Shards, and their sum.
for shard in 0 1 2 3; do
    "$room/settwice" --ends --bound 3 --shard "$shard/4" --save "$room/part.$shard" "$room/settwice.txt" > "$room/out" || { cat "$room/out"; false; }
    tell $? "shard $shard"
done
"$room/settwice" --merge "$room"/part.? > "$room/merged" && seen "$room/merged" | diff "$room/wanted" -
tell $? "merged shards"
"$room/settwice" --merge "$room"/part.[023] > "$room/out" 2>&1
[ $? = 4 ] && grep -q "part 1/4 isn't there" "$room/out"
tell $? "a shard that is missing"
"$room/settwice" --merge "$room"/part.? "$room/part.2" > "$room/out" 2>&1
[ $? = 3 ] && grep -q "is there twice" "$room/out"
tell $? "a shard that is there twice"
"$room/settwice" --ends --bound 2 --shard 1/4 --save "$room/other" "$room/settwice.txt" > "$room/out"
"$room/settwice" --merge "$room"/part.[023] "$room/other" > "$room/out" 2>&1
[ $? = 3 ] && grep -q "another search" "$room/out"
tell $? "a shard of another search"

# As many parts as the array of docs/EXPLORE.md has, most of them with little to do.
part() {
    "$built/settwice" --ends --bound 3 --shard "$1/64" --save "$built/many.$1" "$built/settwice.txt" > "$room/out" || { cat "$room/out"; false; }
    tell $? "part $1 of 64"
}
mapfile -t numbers < <(seq 0 63)
rows part "${numbers[@]}"
"$room/settwice" --merge "$room"/many.* > "$room/merged" && seen "$room/merged" | diff "$room/wanted" -
tell $? "64 merged parts"

# A part of another driver's program, whose places are other lines.
"$room/lockorder" --merge "$room"/part.? > "$room/out" 2>&1
[ $? = 3 ] && grep -q "another search, by another program" "$room/out"
tell $? "parts of another program"

# What can't be written is told, and what was found is shown all the same.
cannot() {
    "$room/lockorder" "$@" "$room/lockorder.txt" > "$room/out" 2>&1
    [ $? = 3 ] && grep -q "^/dev/full: can't be written$" "$room/out" && { [ "$1" = --learn ] || grep -q '^    STUCK' "$room/out"; }
    tell $? "$* can't be written"
}
if [ -c /dev/full ]; then
    cannot --save /dev/full
    cannot --learn /dev/full
    cannot --page /dev/full
    "$room/lockorder" "$room/lockorder.txt" 2> "$room/out" > /dev/full
    [ $? = 3 ] && grep -q "can't be written" "$room/out" && [ -c /dev/full ]
    tell $? "standard output that can't be written"
fi

# A part that is killed is told, and Ctrl-C stops the others: what was found is shown, and that it isn't whole. Each is given work by its processor's time, whatever else the machine does.
build kitfreed --explore "$room/kitfreed" "$schedules/kitfreed.c"
long=(--whole --bound 9 "$scenarios/kitfreed.txt")
# worked PROCESS: it has used a second of a processor. False if it has ended.
worked() {
    local used=0
    while [ "$used" -lt "$(getconf CLK_TCK)" ]; do
        used=$(sed 's/.*) //' "/proc/$1/stat" 2> /dev/null | cut -d ' ' -f 12)
        [ -n "$used" ] || return 1
    done
}
"$room/kitfreed" --jobs 2 "${long[@]}" > "$room/out" 2>&1 &
search=$!
parts=
until [ "$(wc -w <<< "$parts")" = 2 ]; do
    parts=$(cat "/proc/$search/task/$search/children") || break
done
worked "${parts%% *}"
kill -KILL "${parts%% *}"
read -r _ second <<< "$parts"
worked "${second% }"
kill -INT $search
wait $search
[ $? = 5 ] && grep -q '^part 0/2 was ended by signal 9: what it found is lost$' "$room/out" && grep -q "^part 0/2 isn't there$" "$room/out" && grep -q "part 1/2 isn't whole$" "$room/out" &&
    grep -q '^    USE AFTER FREE' "$room/out" && ! grep -q '^0 schedules' "$room/out"
tell $? "a part that is killed, and Ctrl-C"
"$room/kitfreed" "${long[@]}" > "$room/out" 2>&1 &
search=$!
worked $search
kill -INT $search
wait $search
[ $? = 5 ] && grep -q "^interrupted: the search isn't whole" "$room/out" && grep -q '^    USE AFTER FREE' "$room/out" && ! grep -q '^0 schedules' "$room/out"
tell $? "Ctrl-C"

# GNU parallel, by the line of docs/EXPLORE.md.
if command -v parallel > /dev/null && parallel --version 2> /dev/null | grep -q '^GNU parallel'; then
    line=$(sed -n 's/^`\(parallel .*\)`.*/\1/p' docs/EXPLORE.md | head -n 1)
    (cd "$room" && cp settwice lo && cp settwice.txt s.txt && rm -f part.* && eval "$line" > parallel.out 2>&1 && ./lo --merge part.* > merged) && "$room/settwice" --shard 0/1 "$room/settwice.txt" > "$room/one" &&
        seen "$room/one" > "$room/wanted2" && seen "$room/merged" | diff "$room/wanted2" -
    tell $? "GNU parallel: $line"
else
    echo "spread: there is no GNU parallel here (Debian: apt install parallel): its line wasn't run"
fi

# Interrupted, and on: what comes out is what one search in one go has.
"$room/ctx" --bound 1 "$room/ctx.txt" > "$room/all"
seen "$room/all" > "$room/wanted"
rm -f "$room/on"
ended=4
rounds=0
while [ $ended = 4 ] && [ $rounds -lt 60 ]; do
    # A little longer each time, so that a slow machine comes on and a fast one is interrupted.
    timeout --foreground -s INT "$(printf '%d.%03d' $((rounds / 25)) $((rounds % 25 * 40 + 30)))" "$room/ctx" --bound 1 --resume "$room/on" "$room/ctx.txt" > "$room/went" 2>&1
    ended=$?
    [ $ended != 124 ] || ended=4
    rounds=$((rounds + 1))
done
[ -f "$room/on" ] || cp "$room/went" "$room/out"
"$room/ctx" --bound 1 --resume "$room/on" "$room/ctx.txt" > "$room/went" 2>&1
seen "$room/went" | diff "$room/wanted" -
tell $? "interrupted, and on"
[ "$rounds" -gt 1 ]
tell $? "it was interrupted"
"$room/settwice" --resume "$room/on" "$room/settwice.txt" > "$room/out" 2>&1
[ $? = 3 ] && grep -q "another search" "$room/out"
tell $? "a file of another search"

# What doesn't go together is refused with a sentence.
refuse() {
    local sentence=$1
    shift
    "$room/settwice" "$@" "$room/settwice.txt" > "$room/out" 2>&1
    [ $? = 2 ] && grep -q "$sentence" "$room/out"
    tell $? "refused: $*"
}
refuse "don't go with --shard and --jobs" --states --jobs 2
refuse "don't go with --shard and --jobs" --reduce --shard 0/2
refuse "don't go with --resume" --states --resume "$room/x"
refuse "both spread the search" --jobs 2 --shard 0/2
finish
