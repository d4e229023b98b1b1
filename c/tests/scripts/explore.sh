#!/usr/bin/env bash
# The explorer's tests: the drivers of c/tests/misuse/schedules, each under every schedule of its scenario; what is found is compared with what is stored, and the shortest schedule of
# each kind is played again. Then all samples with four clients: up to one preemption, and with --whole up to two.
set -u
WHOLE=${1:-}
. "$(dirname "$0")/tally.sh" explore
bound=1
[ "$WHOLE" != --whole ] || bound=2
schedules=$tests/misuse/schedules
scenarios=$tests/scenarios
timeless() {
    sed 's/, [0-9.]* s, /, /'
}

# The words of a scenario, but for those of its search.
words_of() {
    sed -n 's/^# words: //p' "$1"
}
other_words_of() {
    words_of "$1" | sed -E 's/--bound [0-9]+//; s/--fail-each//; s/--ends//'
}

# search SCENARIO WORDS..: the program searches it; some of the words are several in one.
search() {
    local scenario=$1 all
    shift
    read -r -a all <<< "$*"
    "$program" "${all[@]}" "$scenario"
}

# Plays each schedule that is named in a report again: it ends as the search did, and shows the same.
play() {
    local schedule all count=0
    while read -r schedule; do
        read -r -a all <<< "$(other_words_of "$scenarios/$1.txt")"
        "$program" "${all[@]}" --trace --replay "$schedule" "$scenarios/$1.txt" > "$room/played" 2>&1
        [ $? = "$2" ] || { echo "$1: '$schedule' ends otherwise"; return 1; }
        count=$((count + 1))
    done < <(awk -v q="'" '/ schedules:$/ { getline; limit = /^    LIMIT/ } /^  --replay/ && !limit { split($0, parts, q); print parts[2] }' "$built/$1.out")
    [ "$count" -gt 0 ]
}

# Known states are left out soundly: a program finds the kinds of ends in "$room/kinds" without them, too. Orders that come to the same are sound.sh's.
reduce() {
    local words=$1 scenario=$2 way
    shift 2
    [ -s "$room/kinds" ] || return 1
    for way in "$@"; do
        search "$scenario" --ends "$words" "$way" > "$room/reduced"
        kinds "$room/reduced" | diff "$room/kinds" - || return 1
        grep -q "^[a-z 0-9]*: .* [1-9][0-9]* given up, [1-9][0-9]* states" "$room/reduced" || return 1
    done
}
# What steps use is known: of those that come to the same in either order, by that, each pair that is drawn does.
commute() {
    search "$1" --commute "$2" "${3:-}" > "$room/pairs" && grep -q '^[1-9][0-9]* pairs, .*, 0 of them wrongly$' "$room/pairs" || { cat "$room/pairs"; false; }
}
searched() {
    local name=$1 scenario=$scenarios/$1.txt status ended finds words ways
    status=$(cat "$tests/expected/explore-$name.status" 2> /dev/null || sed -n 's/^# status: //p' "$scenario" | grep . || echo 0)
    search "$scenario" --whole "$(words_of "$scenario")" > "$room/whole"
    ended=$?
    timeless < "$room/whole" > "$built/$name.out"
    # Where nothing is stored, the scenario says what is found.
    if [ -f "$tests/expected/explore-$name.out" ]; then
        [ $ended = "$status" ] && diff "$tests/expected/explore-$name.out" "$built/$name.out"
    else
        finds=$(finds_of "$scenario")
        if [ "$finds" = nothing ]; then
            [ $ended = "$status" ] && ! grep -q "schedules:" "$built/$name.out"
        else
            [ $ended = "$status" ] && grep -q "^    $finds" "$built/$name.out"
        fi || { cat "$built/$name.out"; false; }
    fi
    tell $? "$name"
    [ "$status" != 4 ] && [ "$name" != barriers ] || return # that one has many schedules, and a row of its own
    case "$name" in polls | settwice | starves) ways=(--reduce) ;; teardowns) ways=(--states) ;; *) ways=(--reduce --states) ;; esac
    words="--bound 3 $(other_words_of "$scenario") $(words_of "$scenario" | grep -q -e --fail-each && echo --fails 1)"
    search "$scenario" --ends --whole "$words" > "$room/plain"
    kinds "$room/plain" > "$room/kinds"
    reduce "$words" "$scenario" "${ways[@]}"
    tell $? "$name with known states left out"
    commute "$scenario" 1000 "$words"
    tell $? "$name, steps in both orders,"
    grep -q -e --replay "$built/$name.out" || return
    play "$name" "$status"
    tell $? "$name, played again,"
    # The points at memory find more, and nothing less.
    grep -q -e --coarse "$scenario" || return
    words=$(words_of "$scenario" | sed 's/--coarse//')
    search "$scenario" "$words" > "$room/fine"
    kinds "$room/fine" > "$room/fine.kinds"
    kinds "$built/$name.out" | comm -23 - "$room/fine.kinds" | grep . && false
    [ $? = 1 ]
    tell $? "$name with points at memory"
}
names=()
drivers=()
for driver in "$schedules"/*.c; do
    name=$(basename "$driver" .c)
    drivers+=("$driver")
    [ ! -f "$scenarios/$name.txt" ] || names+=("$name")
done
# Whatever a driver prints: what happened is no text. The same ends are found under each of these words, and nothing is told.
cp "$schedules/small.h" "$room"
prints=('stream: > %d' 'contexts born %d' 'TOLD KZ0999 %d' 'LIMIT KZ0212 %d' ' info %d bytes ' 'CRASH %d')
for at in "${!prints[@]}"; do
    sed "s/a stream had %d creates/${prints[at]}/" "$schedules/settwice.c" > "$room/says$at.c"
    drivers+=("$room/says$at.c")
done
program=$room/schedules
build schedules --explore "$program" "${drivers[@]}" $tests/drivers/left.c $tests/misuse/forever.c
rows searched "${names[@]}"

# ended SCENARIO WORDS [SCHEDULES]: without a bound no end is lost. There are those that the search by states has and, where it ends, the search of each schedule by itself. It has SCHEDULES, more than there are else.
ended() {
    local scenario=$1 words=$2
    search "$scenario" --ends --bound all "$words" > "$room/all"
    kinds "$room/all" > "$room/kinds"
    search "$scenario" --ends --states "$words" > "$room/states"
    [ -s "$room/kinds" ] && kinds "$room/states" | diff "$room/kinds" - || return 1
    [ -n "${3:-}" ] || return 0
    search "$scenario" --ends --whole --bound all "$words" > "$room/whole"
    grep -q "^no bound: $3 schedules, " "$room/whole" && ! grep -q "^no bound: $3 schedules, " "$room/all" && kinds "$room/whole" | diff "$room/kinds" -
}
# Of two clients with so many steps there are C(a + b, a) schedules: 7 and 7 steps have 3432, 8 and 7 have 6435. Those of the same requests are counted once.
unbounded() {
    local name=${1%%:*} whole=${1#"${1%%:*}"} words
    words="$(other_words_of "$scenarios/$name.txt") $(words_of "$scenarios/$name.txt" | grep -q -e --fail-each && echo --fails 1)"
    ended "$scenarios/$name.txt" "$words" "${whole#:}"
    tell $? "$name without a bound"
}
rows unbounded counter:1716 compares:3432 copied:3432 sharedtable:3432 sharedtext:3432 cleared:3432 sharedlist:6435 afterpend checkact closing countedbyplus fetchestwice initialisedtwice insidelock keptinside lastrelease \
    lockorder lostupdate nocount publishedearly readsinto readthenset refusal rundown setagain setflag sharedagain stuckdetach teardowns triesforever waitsforwriter writesout
schedules_of() {
    sed -n 's/^\([0-9]*\) schedules:$/\1/p' "$1" | sort -n
}
said() {
    sed "s/settwice/says$1/" $scenarios/settwice.txt > "$room/says.txt"
    search "$room/says.txt" --whole --coarse --ends > "$room/says.out" && [ "$(grep -c "^    END" "$room/says.out")" = 5 ] && schedules_of "$room/says.out" | diff <(schedules_of "$built/settwice.out") - &&
        diff <(grep '^bound' "$built/settwice.out") <(timeless < "$room/says.out" | grep '^bound')
    tell $? "a driver that prints '${prints[$1]}'"
}
rows said "${!prints[@]}"

# A schedule as a reader sees it.
"$program" --trace --replay 'r*3 d*8 r*4 finally*4' $scenarios/stuckdetach.txt > "$room/trace.out"
[ $? = 6 ] && diff $tests/expected/explore-trace.out "$room/trace.out"
tell $? "trace"

# The same as a page: a lane for each client, the lines of the driver, the locks that are held, both sides of a race.
"$program" --page "$room/page.html" $scenarios/lockorder.txt > "$room/out"
[ $? = 6 ] && grep -q '<th>r</th><th>f</th>' "$room/page.html" && grep -q 'holds gFirst' "$room/page.html" && grep -q 'holds gSecond' "$room/page.html" &&
    grep -q 'lockorder.c:26</span> <code>ExAcquireFastMutex(&amp;gFirst);</code>' "$room/page.html" && grep -q 'preempts' "$room/page.html"
tell $? "page"
"$program" --replay 'a*7 b*7' --page "$room/page.html" $scenarios/counter.txt > "$room/out"
[ $? = 5 ] && [ "$(grep -c 'tr class="side"' "$room/page.html")" = 2 ] && grep -q 'writes gReads' "$room/page.html"
tell $? "page of a race"
"$program" --trace --replay 'a*7 b*7' $scenarios/counter.txt > "$room/out"
[ $? = 5 ] && [ "$(grep '^        reads gReads' "$room/out")" = $'        reads gReads = 0, writes gReads = 1\n        reads gReads = 1, writes gReads = 2' ] && grep -q '^  b comes behind nothing that a did$' "$room/out"
tell $? "trace of what is touched, and why it is a race"
"$program" --trace --replay 'a*5 b*10 a*5 finally*6' $scenarios/lostupdate.txt > "$room/out"
[ $? = 5 ] && [ "$(grep -o 'order gReads = .' "$room/out" | tr -d '\n')" = 'order gReads = 0order gReads = 0order gReads = 1order gReads = 1order gReads = 1' ]
tell $? "trace of a lost update"
"$program" --trace --coarse --replay 'r*9 f*4' $scenarios/lastrelease.txt > "$room/out"
[ $? = 5 ] && grep -q '^  f comes behind what r did up to step [0-9]*, FltReleaseContext at lastrelease.c:29 ' "$room/out"
tell $? "trace of what is in order still"

# Races between the same two lines are shown once, whatever they touch and whoever came first; those in which memory is freed apart. A read's line 19 meets a flush's lines 26 and 27, and 27 frees.
"$program" --whole --bound 1 $scenarios/sharedlist.txt > "$room/out"
[ $? = 5 ] && sed -nE 's/^    RACE: (a read|memory is freed) at ([^ ]*) .* at ([^ ]*) .*/\1 \2 \3/p' "$room/out" | sort | diff - <(printf '%s\n' 'a read sharedlist.c:26 sharedlist.c:19' 'a read sharedlist.c:27 sharedlist.c:19' 'memory is freed sharedlist.c:27 sharedlist.c:19') &&
    [ "$(grep -c '^    RACE' "$room/out")" = 3 ] && [ "$(grep -c '^    and [0-9]* more between the same two lines$' "$room/out")" = 2 ]
tell $? "races that are shown once"

# What a seed finds is shown by less: with one preemption, and without the requests that aren't needed.
"$program" --seed 1 --runs 500 --pct 2 --shrink $scenarios/stuckdetach-long.txt > "$room/out"
[ $? = 6 ] && grep -q '^  the shortest: 1 preemptions' "$room/out" && grep -A 2 '^    STUCK' "$room/out" | grep -q '^    client r: read 0 0 8$' && grep -q '^    client d: detach 0$' "$room/out"
tell $? "shrunk"

# Steps are known for pairs of them, however the search is asked for.
for way in "" --whole --states --reduce; do
    search $scenarios/lockorder.txt --commute 300 "$way" > "$room/pairs.${way#--}"
    [ $? = 0 ] && grep -q '^[1-9][0-9]* pairs, .* [1-9][0-9]* are taken to, 0 of them wrongly$' "$room/pairs.${way#--}" && cmp "$room/pairs." "$room/pairs.${way#--}"
    tell $? "pairs of steps with '$way'"
done

# What can't be searched says why.
refuses() {
    printf %b "$3" > "$room/refused.txt"
    "$program" "$room/refused.txt" > "$room/out" 2>&1
    [ $? = "$1" ] && grep -q "$2" "$room/out"
}
refuses 2 'refused.txt:3: not understood: there is no request raed; the nearest is read$' 'load counter\nattach 0 0 c 100\nclient r: raed 0 0 1\n'
tell $? "a client that asks for what isn't there"
refuses 2 'not understood: read g 0 1: no create is `as g`$' 'load counter\nattach 0 0 c 100\nclient r: create 0 new a as h; read g 0 1\nclient f: read h 0 1\n'
tell $? "a handle that no create gives"
refuses 1 'the set-up has a line that is refused: load none$' 'load none\nclient r: list 0\n'
tell $? "a set-up that is refused"
refuses 2 'the set-up has a line that is no request: create x new a: no volume is named x$' 'load counter\ncreate x new a\nclient r: list 0\n'
tell $? "a set-up that isn't understood"

# The word that is wrong is named.
word() {
    local sentence=$1
    shift
    "$program" "$@" "$scenarios/counter.txt" > "$room/out" 2>&1
    [ $? = 2 ] && [ "$(cat "$room/out")" = "$sentence" ]
    tell $? "the word that is wrong: $*"
}
word 'there is no word --boundd; the nearest is --bound (--help shows all)' --boundd 2
word 'there is no word --everything (--help shows all)' --everything
word '--bound x: behind --bound stands a number from 0 to 63, or all' --bound x
word '--runs 0: behind --runs stands a number from 1 on' --seed 1 --runs 0
word '--shard 4/4: behind --shard stands a part, as 0/4 is the first of four' --shard 4/4
word "$scenarios/counter.txt: the scenario is other.txt, and there is one" other.txt

# A request that is refused in each schedule is shown, and a client of which nothing else is left: a handle that isn't there, a volume that is attached to already. One that a driver denies isn't.
sed '/^client/d' $scenarios/counter.txt > "$room/refused.txt"
printf 'client r: read 7 0 8; attach 0 0 c 100\nclient s: read 0 0 8; read 7 0 8\n' >> "$room/refused.txt"
"$program" --bound 1 "$room/refused.txt" > "$room/out"
[ $? = 1 ] && [ "$(grep -c '^client r: refused in each schedule, with status [0-9]*: ' "$room/out")" = 2 ] &&
    [ "$(grep 'so nothing of it was tried$' "$room/out")" = 'client r: each of its requests is refused in each schedule, so nothing of it was tried' ] &&
    [ "$(grep -c '^client s: ' "$room/out")" = 1 ] && grep -q '^client s: refused .*: read 7 0 8$' "$room/out"
tell $? "requests that are refused in each schedule"
"$program" --bound 1 --jobs 2 "$room/refused.txt" | grep '^client ' | diff - <(grep '^client ' "$room/out")
tell $? "requests that are refused in each schedule, by jobs"
# Where only some are refused, for another reason, something was tried: that is right. Where each of each client is, nothing was.
sed -i -e 's/^client r: .*/client r: attach 0 0 c 100/' -e 's/^client s: .*/client s: read 0 0 8/' "$room/refused.txt"
"$program" --bound 1 "$room/refused.txt" > "$room/out" && grep -q '^client r: each of its requests is refused' "$room/out"
tell $? "a client of which nothing is tried beside one"
sed -i -e 's/^client s: .*/client s: attach 0 0 c 100/' "$room/refused.txt"
"$program" --bound 1 "$room/refused.txt" > "$room/out"
[ $? = 1 ] && [ "$(grep -c 'so nothing of it was tried$' "$room/out")" = 2 ]
tell $? "a search that tries nothing"

# Which calls of the kit are points.
$tests/scripts/points.py
tell $? "points"

# Others see a write later, where no barrier stands behind it: only so is the mistake of closing there. Where barriers stand nothing is found; with two preemptions, without them, something is.
"$program" --late 0 --bound 2 $scenarios/closing.txt > "$room/out" && "$program" --bound 1 $scenarios/closing.txt | grep -q -e "^  --replay '[^']* late "
tell $? "a write that is seen later"
if [ "$WHOLE" = --whole ]; then
    "$program" --bound 2 $scenarios/barriers.txt > "$room/out"
    tell $? "barriers"
    sed 's/    KeMemoryBarrier();//' $schedules/barriers.c > "$room/nobarriers.c"
    sed 's/load barriers/load nobarriers/' $scenarios/barriers.txt > "$room/nobarriers.txt"
    build nobarriers --explore "$room/nobarriers" "$room/nobarriers.c"
    "$room/nobarriers" --bound 2 "$room/nobarriers.txt" > "$room/out"
    [ $? = 5 ] && grep -q '^    TOLD KZ0191' "$room/out"
    tell $? "barriers that aren't there"
fi

# A limit counts where that is asked for.
printf 'load left\nattach 0 0 l 100\nclient r: create 0 new a\n' > "$room/left.txt"
"$program" "$room/left.txt" > "$room/out" && grep -q '^    LIMIT' "$room/out"
tell $? "limits"
"$program" --strict "$room/left.txt" > "$room/out"
[ $? = 5 ] && grep -q '^    LIMIT' "$room/out"
tell $? "limits that count"

# Code that comes to no call ends a schedule within a second of the processor's.
printf 'load forever\nattach 0 0 f 100\ncreate 0 new a\nclient r: read 0 0 5\nclient s: read 0 0 6\n' > "$room/forever.txt"
timeout 600 "$program" --bound 1 "$room/forever.txt" > "$room/out"
[ $? = 6 ] && grep -q "^    ENDLESS: the driver's code comes to no call at forever.c:1[45]" "$room/out"
tell $? "code without an end"
[ "$(grep '^    ENDLESS' "$room/out" | sort | uniq -d)" = "" ]
tell $? "each kind is shown once"

# What is expected once all have ended.
{
    sed '/^client/d' $scenarios/counter.txt
    echo 'client a: write 0 0 61'
    echo 'client b: setsize 0 0'
    echo 'finally: querysize 0; expect status 0; expect info 1'
} > "$room/last.txt"
"$program" --bound 0 "$room/last.txt" > "$room/out"
[ $? = 5 ] && grep -q '^    unmet: info 0$' "$room/out" && grep -q '^bound 0: 2 schedules.*; told 1,' "$room/out"
tell $? "an expectation at the end"

# A debugger stops at the last step of a schedule.
if command -v gdb > /dev/null; then
    KAZDRIN_GDB=$(printf 'bt\nkill\nquit') "$program" --replay 'r*4 f*5 r' --gdb $scenarios/lockorder.txt < /dev/null > "$room/out" 2>&1
    grep -q 'SIGTRAP' "$room/out" && grep -q ' choose (' "$room/out"
    tell $? "gdb"
fi

# Stored ends: none differs; and where one is left out or made up, it is new or gone.
"$program" --learn "$room/ends" $scenarios/settwice.txt > "$room/learned" && "$program" --expect-ends "$room/ends" $scenarios/settwice.txt > "$room/ended"
[ $? = 0 ] && grep -q "^5 ends" "$room/learned" && ! grep -q "new\|gone" "$room/ended"
tell $? "stored ends"
sed 's/a stream had 2 creates/a stream had 3 creates/' "$room/ends" > "$room/other"
"$program" --expect-ends "$room/other" $scenarios/settwice.txt > "$room/ended"
[ $? = 1 ] && [ "$(grep -c "^new:" "$room/ended")" = 2 ] && [ "$(grep -c "^gone:" "$room/ended")" = 2 ] && grep -q -e --replay "$room/ended"
tell $? "stored ends that differ"

# A search by states ends of itself; one whose memory is full says so.
"$program" --states $scenarios/lostrelease.txt > "$room/states.out"
[ $? = 5 ] && grep -q "^no bound: .*; told [1-9]" "$room/states.out"
tell $? "states"
"$program" --states --memory 0 --coarse $scenarios/settwice.txt > "$room/full.out"
[ $? = 4 ] && grep -q "isn't whole" "$room/full.out"
tell $? "a full memory"

# Seeds, by a coin and by priorities: the same words find the same, and the seed that is shown repeats its schedule alone.
draw() {
    local scenario=$1 seed
    shift
    "$program" "$@" "$scenario" | timeless > "$room/seed.1"
    "$program" "$@" "$scenario" | timeless | cmp - "$room/seed.1" || return 1
    seed=$(sed -n 's/^  \(--seed .*\)/\1/p' "$room/seed.1" | head -n 1)
    [ -n "$seed" ] || return 1
    search "$scenario" "$seed" > "$room/seed.2"
    grep -q "^1 schedules" "$room/seed.2" && [ "$(sed -n 's/^  --replay//p' "$room/seed.1" | head -n 1)" = "$(sed -n 's/^  --replay//p' "$room/seed.2" | head -n 1)" ]
}
draw $scenarios/lostrelease.txt --seed 7 --runs 200 && grep -q "TOLD KZ0101" "$room/seed.1"
tell $? "seed"
draw $scenarios/stuckdetach-long.txt --seed 1 --runs 500 --pct 2 && grep -q STUCK "$room/seed.1"
tell $? "seed with priorities"

# All samples with four clients: nothing is found.
sampled() {
    local name=$1
    sed "s/DRIVER/$name/" $scenarios/four-clients.txt > "$room/scenario"
    "$program" --ends --whole --bound "$bound" "$room/scenario" > "$room/plain"
    tell $? "$name under every schedule"
    [ "$bound" = 1 ] || grep '^bound' "$room/plain"
    kinds "$room/plain" > "$room/kinds"
    reduce "--bound $bound" "$room/scenario" --reduce
    tell $? "$name with known states left out"
    commute "$room/scenario" 1000
    tell $? "$name, steps in both orders,"
    sed "s/DRIVER/$name/" $scenarios/refusals.txt > "$room/scenario"
    "$program" --fail-each "$room/scenario" > "$room/out"
    tell $? "$name with each refusal"
}
program=$room/samples
build samples --explore "$program" c/samples/*.c
names=(c/samples/*.c)
names=("${names[@]##*/}")
rows sampled "${names[@]%.c}"
# And of right drivers a read beside a write, and beside a detach.
right() {
    sed -e "s/DRIVER/$1/" -e '/^client [cd]/d' -e 's/; flush a//' $scenarios/four-clients.txt > "$room/scenario"
    ended "$room/scenario" ""
    tell $? "$1 without a bound"
    case $1 in audit | contentscan | ctx | passthrough | spy) ;; *) return ;; esac
    sed -i 's/^client w.*/client d: detach 0/' "$room/scenario"
    ended "$room/scenario" "" && commute "$room/scenario" 1000
    tell $? "$1 without a bound, beside a detach"
}
rows right audit backup cipher contentscan control ctx metadata passthrough processaudit quota scanner spy trail
finish
