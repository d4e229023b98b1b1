#!/usr/bin/env bash
# coverage.sh : which lines ran. What is counted of a source and of both kinds of binaries is the same on each line that two of them know; what is printed stays the same; runs, schedules, threads and what is forked add
# up; neither a crash nor a signal loses anything.
set -u
. "$(dirname "$0")/tally.sh" coverage

[ "$(uname -m)" = x86_64 ] || {
    echo "coverage: not tried, since lines are counted on x86-64 alone"
    finish
    exit
}
build counted --coverage "$room/counted" c/samples/ctx.c c/samples/minispy.c "$tests/misuse/crashes.c"
build plain "$room/plain" c/samples/ctx.c c/samples/minispy.c "$tests/misuse/crashes.c"
build explore --explore --coverage "$room/explore" c/samples/ctx.c
build run --image "$room/run"
export RUN=$room/run

# ran FILE SOURCE LINE : in how many runs that line did.
ran() {
    awk -v source="$2" -v line="$3" '/^SF:/ { here = $0 ~ "/" source "$" } here && $0 ~ "^DA:" line "," { sub(/.*,/, ""); print; found = 1 } END { if (!found) print "none" }' "$1"
}
# line_of SOURCE TEXT : where the first line with that text stands.
line_of() {
    grep -nF -m 1 -- "$2" "$1" | cut -d : -f 1
}

# What is printed stays, and each run counts once.
for name in ctx minispy; do
    "$room/plain" "$tests/requests/$name.txt" > "$room/plain.out" 2> /dev/null
    "$room/counted" "$tests/requests/$name.txt" > "$room/counted.out" 2> "$room/$name.said" && diff "$room/plain.out" "$room/counted.out"
    tell $? "$name prints the same while its lines are counted"
done
entry=$(line_of c/samples/ctx.c 'status = FltRegisterFilter(')
ended=$(line_of c/samples/ctx.c 'FltUnregisterFilter(gFilterHandle);')
last=$(grep -nF 'FltUnregisterFilter(gFilterHandle);' c/samples/ctx.c | tail -n 1 | cut -d : -f 1)
[ "$(ran "$room/counted.info" ctx.c "$entry")" = 1 ] && [ "$(ran "$room/counted.info" ctx.c "$last")" = 0 ] && [ "$(ran "$room/counted.info" ctx.c "$ended")" = 1 ]
tell $? "a line that ran, one that didn't, and one of the unload"
"$room/counted" "$tests/requests/ctx.txt" > /dev/null 2>&1
[ "$(ran "$room/counted.info" ctx.c "$entry")" = 2 ] && [ "$(ran "$room/counted.info" ctx.c "$last")" = 0 ]
tell $? "a second run adds to the first"
printf 'load minispy\n' > "$room/short.txt"
rm "$room/counted.info"
"$room/counted" "$room/short.txt" > /dev/null 2> "$room/said"
grep -q '^minispy.c: .*; never entered: .*SpyPreOperationCallback:' "$room/said" && ! grep -q 'never entered: .*DriverEntry' <(grep '^minispy.c' "$room/said")
tell $? "functions that were never entered"

# A crash is told as ever, by its signal too, and what ran before it is written.
printf 'load crashes\nattach 0 0 c 100\ncreate 0 new a\nread 0 0 1\n' > "$room/crash.txt"
"$room/plain" "$room/crash.txt" > "$room/plain.out" 2> /dev/null
before=$?
KAZDRIN_COVERAGE=$room/crash.info "$room/counted" "$room/crash.txt" > "$room/counted.out" 2> /dev/null
after=$?
crashed=$(line_of "$tests/misuse/crashes.c" '        gFunction();')
[ "$before" = "$after" ] && [ "$before" -gt 128 ] && diff "$room/plain.out" "$room/counted.out" && [ "$(ran "$room/crash.info" crashes.c "$crashed")$(ran "$room/crash.info" crashes.c $((crashed + 1)))" = 10 ]
tell $? "a crash keeps what ran before it"

# Every schedule, and what other processes ran.
sed 's/DRIVER/ctx/' "$tests/scenarios/four-clients.txt" > "$room/four.txt"
KAZDRIN_COVERAGE=$room/one.info "$room/explore" --bound 1 "$room/four.txt" > "$room/one.out" 2> /dev/null
KAZDRIN_COVERAGE=$room/three.info "$room/explore" --jobs 3 --bound 1 "$room/four.txt" > "$room/three.out" 2> /dev/null
KAZDRIN_COVERAGE='' "$room/explore" --bound 1 "$room/four.txt" 2>&1 | sed 's/, [0-9.]* s,/,/' > "$room/none.out"
sed 's/, [0-9.]* s,/,/' "$room/one.out" | diff "$room/none.out" - && diff "$room/one.info" "$room/three.info" && [ "$(ran "$room/one.info" ctx.c "$entry")" = 1 ]
tell $? "schedules find the same while lines are counted, and jobs add up"
sed 's/DRIVER/ctx/' "$tests/scenarios/load.txt" > "$room/load.txt"
KAZDRIN_COVERAGE=$room/load.info "$room/counted" --load "$room/load.txt" --threads 4 --seconds 1 > /dev/null 2>&1 && [ "$(ran "$room/load.info" ctx.c "$entry")" = 1 ]
tell $? "four threads"
! KAZDRIN_COVERAGE=$room/none/x.info "$room/counted" "$room/short.txt" > /dev/null 2> "$room/said" && grep -q "^$room/none/x.info can't be written$" "$room/said"
tell $? "a file that can't be written"

# Binaries, by their .pdb and by their DWARF.
for kind in msvc mingw; do
    case $kind in
    msvc) tools=(python3 clang lld-link llvm-dlltool) ;;
    mingw) tools=(python3 x86_64-w64-mingw32-gcc x86_64-w64-mingw32-dlltool) ;;
    esac
    command -v "${tools[@]}" > "$room/found"
    [ "$(wc -l < "$room/found")" = ${#tools[@]} ] && [ -f /usr/x86_64-w64-mingw32/include/ddk/ntifs.h ] || {
        echo "coverage: drivers by $kind aren't tried: its toolchain or mingw-w64's headers aren't here"
        continue
    }
    mkdir "$room/$kind"
    for name in ctx minispy; do
        "$tests/image/sys.sh" "$kind" "$room/kit-$kind" "$room/$kind/$name.sys" "c/samples/$name.c" > "$room/log" 2>&1 || cat "$room/log"
        rm -f "$room/counted.info"
        "$room/counted" "$tests/requests/$name.txt" > /dev/null 2>&1
        KAZDRIN_COVERAGE=$room/$kind.info "$room/run" "$room/$kind/$name.sys" "$tests/requests/$name.txt" > "$room/binary.out" 2> /dev/null
        "$room/run" "$room/$kind/$name.sys" "$tests/requests/$name.txt" 2> /dev/null | diff - "$room/binary.out" && python3 "$tests/image/lines.py" "$name.c" "$room/counted.info" "$room/$kind.info"
        tell $? "$name by $kind: each line as of its source"
        rm -f "$room/$kind.info"
    done
done
finish
