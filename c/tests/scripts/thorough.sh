#!/usr/bin/env bash
# c/tests/scripts/thorough.sh [PART ..] (make -C c thorough PART='..') : the long tests of the C half.
#
#   host        160,000 random requests through all samples, with the part host
#   explore     each sample with four clients, under every schedule with at most two preemptions
#   sound       20,000 random scenarios, each with the ends of --whole: some hours of a processor
#   lines       lines of drivers by gcc and clang at several optimizations, and the headers compared with those of mingw-w64
#   threads     each sample for ten seconds with eight threads
#   names       3,000 random sessions of names, compared with a model of their own
#   paging      300 random sessions above a volume that caches
#   programs    samples with programs of their own, as both
#   image       a minute of changed binaries under the sanitizers, with the part image
#   binaries    all samples as binaries in all words, and below a mount; the binaries of Wine, if they are here: ten minutes
#   libfuzzer   libFuzzer over a driver with a mistake, which it must find, and over one without
#   real        some seventy real programs above the mount of each server: four filters of fltd, the filter of own_server, which denies deletions, and four drivers in C: ten minutes
#   release     a release, installed in a room where neither this checkout nor the kit is: a driver is built, explored and tested there
#   mount       the mount: COUNT random operations (100000), what of it shows races under the thread sanitizer, and some under valgrind: half an hour
#
# KAZDRIN_LIB is the manager's archive, as for c/build.sh, FLTD the server below the mount. The exit status says whether anything failed.
set -u
case ${1:-} in -h | --help) sed -n '2,/^[^#]/s/^#\( \|$\)//p' "$0"; exit ;; esac
here=$(cd "$(dirname "$0")" && pwd)
. "$here/tally.sh" thorough
export KAZDRIN_LIB=${KAZDRIN_LIB:-$(c/archive.sh --unproved)}

host() {
    "$here/host.sh" --whole
    tell $? host
}

explore() {
    "$here/explore.sh" --whole
    tell $? explore
}

sound() {
    "$here/sound.sh" 20000
    tell $? sound
}

# The lines of a driver are the same by each compiler and at each optimization; so are the headers as mingw-w64 has them.
lines() {
    local words
    for words in "cc -O0" "cc -O3" "clang -O0" "clang -O3"; do
        command -v "${words% *}" > /dev/null || continue
        CC=${words% *} CFLAGS=${words#* } c/build.sh "$room/leaks" $tests/misuse/leaks.c && { "$room/leaks" $tests/requests/leaks.txt; [ $? = 5 ]; } > "$room/leaks.out" &&
            diff $tests/expected/leaks.out "$room/leaks.out"
        tell $? "lines by $words"
    done
    "$here/headers.sh"
    tell $? "headers"
}

threads() {
    "$here/threads.sh" --whole
    tell $? threads
}

names() {
    "$here/names.sh" --whole
    tell $? names
}

paging() {
    "$here/paging.sh" --whole
    tell $? paging
}

programs() {
    "$here/programs.sh" --whole
    tell $? programs
}

image() {
    SECONDS_OF_FUZZ=60 "$here/image.sh"
    tell $? image
}

binaries() {
    "$here/binaries.sh"
    tell $? binaries
}

libfuzzer() {
    local top=$PWD
    cd "$room" || exit
    "$top/c/fuzz.sh" --libfuzzer "$top/$tests/misuse/schedules/refusal.c" -- -runs=20000 -seed=1 > found.out 2>&1
    [ $? != 0 ]
    tell $? "libFuzzer finds a call that may be refused:"
    if grep -q "left out" found.out; then
        cat found.out
    else
        "$top/c/build.sh" ./refusal "$top/$tests/misuse/schedules/refusal.c"
        ./refusal failure.txt > played.out 2>&1
        [ $? != 0 ]
        tell $? "what libFuzzer found, played again,"
        "$top/c/fuzz.sh" --libfuzzer "$top/c/samples/ctx.c" -- -runs=2000 -seed=1 > silent.out 2>&1 || { cat silent.out; false; }
        tell $? "libFuzzer above ctx"
    fi
    cd "$top" || exit
}

real() {
    local fltd own run=$tests/mount/real.py
    "$here/needs.sh"
    fltd=$(server_of_mount)
    own=$PWD/crates/own_server/out/own_server
    [ -x "$own" ] || own=$(tools/unproved own_server)
    make -s -C c fltmount PROGRAM="$room/fltmount" || return
    c/build.sh --serve "$room/served" c/samples/nullfilter.c c/samples/swapbuffers.c c/samples/passthrough.c c/samples/minispy.c
    $run --server "$fltd" --mount "$room/fltmount" --filters shift@100,carry@200,guard@300,meter@400
    tell $? "real programs above fltd"
    $run --server "$own" --mount "$room/fltmount" --filters audit@100 --denies
    tell $? "real programs above own_server"
    $run --server "$room/served" --mount "$room/fltmount" --filters nullfilter@50,swapbuffers@100,passthrough@200,minispy@300
    tell $? "real programs above drivers in C"
}

release() {
    "$here/release.sh"
    tell $? release
}

mount() {
    local count=${COUNT:-100000} program=$room/fltmount.threads
    export FLTD=${FLTD:-$(server_of_mount)}
    COUNT=$count "$here/mount.sh"
    tell $? mount
    may_mount > /dev/null && make -s -C c fltmount PROGRAM="$room/fltmount" || return
    c/build.sh --serve "$room/served" $tests/serve/drivers/shift.c
    $tests/mount/check.py --server "$room/served" --mount "$room/fltmount" --renames all --wide --kills 100 safe
    tell $? "a hundred kills each in safe writes"
    if make -s -C c fltmount PROGRAM="$program" CFLAGS="-O1 -fsanitize=thread" 2> /dev/null; then
        $tests/mount/check.py --server "$FLTD" --mount "$program" --count 6000 calls model deletions held ends
        tell $? "mount with threads"
    fi
    if command -v valgrind > /dev/null; then
        $tests/mount/check.py --server "$FLTD" --mount "valgrind -q --error-exitcode=99 --leak-check=full $room/fltmount" --count 300 model deletions
        tell $? "mount under valgrind"
    fi
}

[ $# -gt 0 ] || set -- host explore sound lines threads names paging programs image binaries libfuzzer real release mount
for part in "$@"; do
    case $part in
    host | explore | sound | lines | threads | names | paging | programs | image | binaries | libfuzzer | real | release | mount) "$part" ;;
    *)
        echo "there is no part $part" >&2
        exit 2
        ;;
    esac
done
finish
