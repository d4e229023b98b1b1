#!/usr/bin/env bash
# c/tests/scripts/script.sh : scripts above the archive (c/orders), with the compiler's sanitizers: the stored ones are answered as fltscript answered them, and threads of scenarios meet in every order. What is
# found is what is stored, which a program above fltscript found; small searches are counted by hand. Then what can't be read, memory that is refused, and a search that is interrupted.
set -u
. "$(dirname "$0")/tally.sh" script
checked='-fsanitize=address,undefined -fno-sanitize-recover=undefined'
program=$(CFLAGS=$checked c/loader.sh orders)
tell $? 'the program, as it was built,'
CFLAGS=$checked $tests/orders/build.sh "$room/answers"
tell $? 'the program of answers, as it was built,'

for script in crates/examples/data/*.flt; do
    "$room/answers" < "$script" > "$room/out" && awk -f $tests/orders/last.awk "$script" "${script%.flt}.out" | diff - "$room/out"
    tell $? "$script"
done

# Words that are no ids, names, altitudes, paths or numbers, too many and too few: as fltscript answered them.
"$room/answers" < $tests/orders/odd.flt | diff $tests/expected/orders-odd.out -
tell $? 'odd lines'

# What the archive doesn't tell and is followed: links of contexts, completions that carry them, operations in flight; as fltscript told it.
"$room/answers" < $tests/orders/follows.flt | diff $tests/expected/orders-follows.out -
tell $? 'what follows from events'

# searched NAME STATUS: a scenario of tools/scenarios ends so, and finds what is stored. What it writes is a script: behind it each line that waits is answered as the search says.
searched() {
    "$program" "tools/scenarios/$1.txt" > "$room/found"
    [ $? = "$2" ] && diff "$tests/expected/orders-$1.out" "$room/found"
    tell $? "$1"
    sed -n 's/^#   .* waits: `\(.*\)` answers `.*`$/\1/p' "$room/found" > "$room/waits"
    cat "$room/found" "$room/waits" | "$room/answers" | tail -n "$(wc -l < "$room/waits")" | diff <(sed -n 's/^#   .* waits: .* answers `\(.*\)`$/\1/p' "$room/found") - && [ -s "$room/waits" ]
    tell $? "$1, played again"
}
searched hold_detach 5
searched work_item 5
searched hold 5

# counted NAME 'STATES states, STEPS steps, ENDS ends..' LINE ..: a scenario of these lines; the first line that is written ends so.
counted() {
    local name=$1 sums=$2
    shift 2
    printf '%s\n' "$@" > "$room/scenario"
    "$program" "$room/scenario" > "$room/out"
    [ "$(head -n 1 "$room/out")" = "# $sums" ] || { cat "$room/out"; false; }
    tell $? "$name"
}
# Threads of m and n lines that don't wait: (m + 1)(n + 1) places but the first, m(n + 1) + n(m + 1) steps between them.
counted 'two and three lines' '11 states, 17 steps, 1 ends' 'thread a: leaks; leaks' 'thread b: leaks; leaks; leaks'
counted 'three threads of a line' '7 states, 12 steps, 1 ends' 'thread a: leaks' 'thread b: leaks' 'thread c: leaks'
# One that repeats waits for a context that never comes: it adds nothing, and nobody waits for it.
counted 'a thread that repeats' '2 states, 2 steps, 1 ends' 'thread a: leaks; leaks' 'repeat b: due w1; cleaned w1'
# The other's operation is the one that it has as the line is made: what it is answered differs by the order, and so do the ends.
counted "another thread's operation" '4 states, 4 steps, 2 ends' 'mount v' 'thread a: list v0' 'thread b: collect $a.o'
# Of two threads of five lines the place (i, j) is one state before both have allocated, two behind that, by whose context is c0, and four once both have set, by whose is set, which counts alone show:
# 20 + 2 * 7 + 4 * 9 without the first. From a place with i = 5, of which there are 16 states, the first thread takes no step: 70 - 16 of each.
counted 'two that replace' '69 states, 108 steps, 4 ends' 'load f' 'mount v' 'attach f0 v0 i 1' 'thread a: enter w1 i0; alloc w1 instance 00; set w1 $c replace; rel w1 $c; left w1' \
    'thread b: enter w2 i0; alloc w2 instance 00; set w2 $c replace; rel w2 $c; left w2'

# At both ends a reference was left behind. The run that is found first has a, b, a; the other one, with fewer switches, is written.
counted 'fewer switches' '12 states, 14 steps, 2 ends' 'load f' 'mount v' 'attach f0 v0 i 1' 'thread a: leaks; due w1; cleaned w1' 'thread b: enter w2 i0; alloc w2 instance 00; left w2'
[ "$(grep '^# [ab]' "$room/out" | tr -d '\n')" = '# at 2 of the ends: a callback left a reference behind# b# a' ]
tell $? 'fewer switches, as they are written'

# refused SENTENCE TEXT: the scenario ends with 2, and says so.
refused() {
    printf '%b' "$2" > "$room/scenario"
    "$program" "$room/scenario" > "$room/out" 2> "$room/err"
    [ $? = 2 ] && [ ! -s "$room/out" ] && [ "$(cat "$room/err")" = "explore: $room/scenario: $1" ] || { cat "$room/err"; false; }
    tell $? "$1"
}
refused 'there is no line `thread NAME: LINE; ..`' ''
refused 'there is no line `thread NAME: LINE; ..`' '# a remark\nload f\n'
refused 'line 2: `laod g` of the set-up answers `no 32`' 'load f\nlaod g\nthread a: leaks\n'
refused 'line 3: `load f` of the set-up answers `no 10`' 'load f\n\nload f\nthread a: leaks\n'
refused "line 2: \`leeks\` of a can't be read: \`no 32\`" 'load f\nthread a: leeks\n'
refused "line 1: \`load f!\` of a can't be read: \`no 3\`" 'thread a: load f!\n'
refused "line 1: can't be read: \`thread\` wants a name and a colon" 'thread a b: leaks\n'
refused "line 1: can't be read: there is no command before or behind a \`;\` or \`:\`" 'thread a\n'
refused "line 1: can't be read: there is no command before or behind a \`;\` or \`:\`" 'thread a: leaks;\n'
refused "line 1: can't be read: there is no command before or behind a \`;\` or \`:\`" 'thread a: # leaks\n'
refused "line 1: can't be read: \`callback\` wants an instance, pre or post, and a colon" 'callback i0 mid: leaks\n'
refused "line 1: can't be read: nothing stands before the colon" ': leaks\n'

# ended STATUS SENTENCE WORD..: the program ends so with these words.
ended() {
    local status=$1 sentence=$2
    shift 2
    "$program" "$@" > "$room/out" 2> "$room/err"
    [ $? = "$status" ] && grep -q "$sentence" "$room/err" || { cat "$room/err"; false; }
    tell $? "$sentence"
}
ended 2 'which scenario?'
ended 2 "\`--last\` isn't understood" --last
ended 2 "\`b\` isn't understood" a b
ended 3 "can't be opened: No such file" "$room/nothing"
ended 3 "can't be read: Is a directory" "$room"
"$program" --first tools/scenarios/hold_detach.txt > "$room/out"
[ $? = 5 ] && head -n 1 "$room/out" | grep -q "^# 34 states, 49 steps, 2 ends; the search isn't whole$" # as the one above fltscript
tell $? '--first'

# 9^6 states, which takes longer than a second.
printf 'thread %s: leaks; leaks; leaks; leaks; leaks; leaks; leaks; leaks\n' a b c d e f > "$room/scenario"
timeout -s INT 1 "$program" "$room/scenario" > "$room/out" 2> "$room/err"
grep -q "; the search isn't whole$" "$room/out" && grep -q ': interrupted$' "$room/err" || { cat "$room/out" "$room/err"; false; }
tell $? 'a search that is interrupted'
# One run that never ends, since nobody waits in it.
printf 'thread a: leaks\nrepeat b: leaks\n' > "$room/endless"
timeout -s INT 1 "$program" "$room/endless" > "$room/out" 2> "$room/err"
grep -q "; the search isn't whole$" "$room/out" && grep -q ': interrupted$' "$room/err" || { cat "$room/out" "$room/err"; false; }
tell $? 'a run that is interrupted'
# Less and less memory, without the sanitizers: it says so, and never crashes. What the program is loaded with is the system's.
program=$(CFLAGS='' c/loader.sh orders)
said=0
for kilobytes in 12000 10000 9000 8000 7000 6000 5000; do
    (ulimit -v $kilobytes && timeout 1 "$program" "$room/scenario") > "$room/out" 2> "$room/err"
    case $? in
    1) grep -q 'there is no memory for more$' "$room/err" && said=$((said + 1)) ;;
    124 | 127) ;;
    *) said=-1000 ;;
    esac
done
[ $said -gt 0 ]
tell $? 'memory that is refused'
finish
