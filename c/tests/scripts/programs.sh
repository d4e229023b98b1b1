#!/usr/bin/env bash
# Samples with scenarios of their own (c/tests/scenarios/programs), which are named by their drivers; some have programs (c/samples/user). NAME.txt runs under every schedule with at most
# one preemption (two with --whole), NAME-refusals.txt with each refusal, and NAME-load.txt with eight threads for a second (ten with --whole) under the thread sanitizer. Nothing may be
# found. The stored requests of these drivers run under the address sanitizer here; part host compares what they print.
set -u
WHOLE=${1:-}
. "$(dirname "$0")/tally.sh" programs
scenarios=$tests/scenarios/programs
bound=1
seconds=1
if [ "$WHOLE" = --whole ]; then
    bound=2
    seconds=10
fi
users=(--user)
for user in c/samples/user/*.c; do
    users+=("$user" --user)
done
unset 'users[-1]'
played() {
    local name=$1
    "$built/explore" --bound "$bound" "$scenarios/$name.txt" > "$room/out" || { cat "$room/out"; false; }
    tell $? "$name under every schedule"
    [ "$bound" = 1 ] || grep '^bound' "$room/out"
    "$built/explore" --fail-each "$scenarios/$name-refusals.txt" > "$room/out" || { cat "$room/out"; false; }
    tell $? "$name with each refusal"
    if [ -x "$built/address" ]; then
        "$built/address" --quiet "$tests/requests/$name.txt" > "$room/out" 2>&1 && [ ! -s "$room/out" ] || { cat "$room/out"; false; }
        tell $? "$name under the address sanitizer"
    fi
    if [ -x "$built/threads" ]; then
        "$built/threads" --load "$scenarios/$name-load.txt" --threads 8 --seconds "$seconds" > "$room/out" 2>&1 || { tail -n 60 "$room/out"; false; }
        tell $? "$name with threads"
    fi
}
names=()
drivers=()
for scenario in "$scenarios"/*-load.txt; do
    name=$(basename "$scenario" -load.txt)
    names+=("$name")
    drivers+=("c/samples/$name.c")
done
build "all of them for the explorer" --explore "$room/explore" "${drivers[@]}" "${users[@]}"
! has_sanitizers address,undefined || build "all of them for the address sanitizer" --sanitize=address,undefined "$room/address" "${drivers[@]}" c/samples/passthrough.c "${users[@]}"
! has_sanitizers thread || build "all of them for the thread sanitizer" --sanitize=thread "$room/threads" "${drivers[@]}" "${users[@]}"
rows played "${names[@]}"

# waiting NAME WORD..: nobody can go on, and each who waits is named, with who has what he waits for.
build "portlock" --explore "$room/portlock" $tests/misuse/portlock.c --user $tests/user/peer.c
waiting() {
    "$room/portlock" --bound 1 "$room/waiting.txt" > "$room/out"
    [ $? = 6 ] && grep -A $# '^    STUCK' "$room/out" | diff - <(printf '    STUCK\n'; printf '      %s\n' "$@")
}
printf 'load portlock\nattach 0 0 p 200\ncreate 0 new f\nstart peer\nclient r: read 0 0 8\n' > "$room/waiting.txt"
waiting 'r waits for FltSendMessage, which is to be answered: peer has it' 'peer waits for KeWaitForSingleObject: r has it'
tell $? "a message and a mutex that wait for one another"
printf 'load portlock\nclient p: start peer circle\n' > "$room/waiting.txt"
waiting 'peer waits for EnterCriticalSection: peer.2 has it' 'peer.2 waits for EnterCriticalSection: peer has it'
tell $? "two threads of a program that wait for one another"
for locks in slim shared; do
    printf 'load portlock\nclient p: start peer %s\n' "$locks" > "$room/waiting.txt"
    waiting 'peer waits for AcquireSRWLockExclusive: peer.2 has it' 'peer.2 waits for AcquireSRWLockExclusive: peer has it'
    tell $? "two threads that wait for one another's slim locks, $locks"
done
printf 'load portlock\nclient p: start peer gone\n' > "$room/waiting.txt"
waiting 'peer waits for EnterCriticalSection: peer.2 has it'
tell $? "a thread that waits for what one has who is gone"
printf 'load portlock\nclient p: start peer itself\n' > "$room/waiting.txt"
waiting 'peer waits for AcquireSRWLockExclusive: peer has it'
tell $? "a thread that waits for itself"
printf 'load portlock\nclient p: start peer abandoned\n' > "$room/waiting.txt"
"$room/portlock" --bound 1 "$room/waiting.txt" > "$room/out"
tell $? "a mutex whose owner has ended"
# A program that waits for a message, as it should, is in nobody's way.
printf 'load portlock\nattach 0 0 p 200\ncreate 0 new f\nclient p: start peer\nclient f: flush 0\n' > "$room/waiting.txt"
"$room/portlock" --bound 1 "$room/waiting.txt" > "$room/out"
tell $? "a program that waits for a message"
# Whoever acknowledges the break of an oplock lets go on who waits for it; where nobody does, that is found.
build "oplocks" --explore "$room/oplocks" c/samples/nullfilter.c --user $tests/user/caching.c
printf 'load nullfilter\nattach 0 0 n 100\nclient p: start caching\n' > "$room/waiting.txt"
"$room/oplocks" --bound 1 "$room/waiting.txt" > "$room/out"
tell $? "a program that acknowledges the break of its oplock"
printf 'create 0 new f as z\nclose z\nclient a: create 0 existing f options 0 as a; fsctl a 0x90008\nclient b: create 0 existing f\n' > "$room/waiting.txt"
"$room/oplocks" --bound 1 "$room/waiting.txt" > "$room/out"
[ $? = 6 ] && grep -A 1 '^    STUCK' "$room/out" | diff - <(printf '    STUCK\n      b waits for the break of an oplock of \\f\n')
tell $? "an oplock whose break nobody acknowledges"
finish
