#!/usr/bin/env bash
# binaries.sh [samples] [drivers] [wine] : all samples as binaries, by both toolchains that are here, beside their sources: each refusal once, a load by threads, with their programs, and below a mount.
# The drivers of c/tests as binaries: all stored requests, and right drivers in order and under their schedules. Then binaries that others made: those of Wine, where WINE_DRIVERS has them (else the folder
# of Debian's package libwine). Part image plays the samples' requests and searches schedules; this takes a quarter of an hour, and thorough.sh runs it.
set -u
. "$(dirname "$0")/stored.sh"
. "$(dirname "$0")/tally.sh" binaries

[ "$(uname -m)" = x86_64 ] || {
    echo "binaries: not tried, since binaries of drivers run on x86-64 alone"
    finish
    exit
}
users=()
for user in c/samples/user/*.c "$tests"/user/*.c; do
    users+=(--user "$user")
done
build run --image "$room/run" "${users[@]}"
build explore --explore --image "$room/explore" "${users[@]}"
build "the samples' sources" --explore "$room/sources" c/samples/*.c "${users[@]}"
build serve --serve --image "$room/serve"
build "a server of the sources" --serve "$room/served" c/samples/*.c
! may_mount > /dev/null || make -s -C c fltmount PROGRAM="$room/fltmount"
export RUN=$room/run

# Whether the words ask for it.
words=" $* "
is_asked() {
    [ "$words" = '  ' ] || [[ $words = *" $1 "* ]]
}

# What a search found: how many schedules there were, and what of them. A binary's points aren't the source's: there are others at memory, and none at what an optimizer left out.
ends_of() {
    sed -n 's/^bound \([0-9]*\): \([0-9]*\) schedules.*;\( told .*\)/\1: \2\3/p' "$1"
}

# refused NAME: each call that may be refused, once: as many schedules as of the source, with the same ends.
refused() {
    local name=$1 scenario=$2
    "$room/sources" --fail-each "$scenario" > "$room/source.out" 2>&1
    "$room/explore" --fail-each "$room/$kind/$name.sys" "$scenario" > "$room/out" 2>&1 && diff <(ends_of "$room/source.out") <(ends_of "$room/out") && grep -q 'told 0, races 0, stuck 0, crashed 0$' "$room/out"
    tell $? "$name with each refusal by $kind"
}

# loaded NAME SCENARIO: by four threads for a second.
loaded() {
    "$room/run" "$room/$kind/$1.sys" --load "$2" --threads 4 --seconds 1 > "$room/out" 2>&1 && tail -n 1 "$room/out" | grep -q 'leaked references 0, told 0, limits [01]$' || { tail -n 20 "$room/out"; false; }
    tell $? "$1 under a load by $kind"
}

# mounted NAME SERVER: what some programs come to above it.
mounted() {
    timeout 100 $tests/mount/real.py --server "$2" --mount "$room/fltmount" --filters "$1@100" 'cp -p' 'sort -o' 'os.rename' 'dd of large' 2>&1
}

# quota refuses what these programs write, and cancelsafe holds each read until its file is flushed: so do the sources.
below_a_mount() {
    local name=$1
    case $name in
    cancelsafe) return ;;
    quota) mounted "$name" "$room/served" > "$room/source.out" ;;
    *) echo 'real: 6 passed, 0 failed' > "$room/source.out" ;;
    esac
    mounted "$name" "$room/server-$kind" | diff "$room/source.out" -
    tell $? "$name below a mount by $kind"
}

with_programs() {
    local name=$1 scenarios=$tests/scenarios/programs
    [ -f "$scenarios/$name-load.txt" ] || return
    "$room/explore" --bound 1 "$room/$kind/$name.sys" "$scenarios/$name.txt" > "$room/out" 2>&1 && grep -q '^bound 1: .*told 0, races 0, stuck 0, crashed 0$' "$room/out" || { cat "$room/out"; false; }
    tell $? "$name with programs under every schedule by $kind"
    refused "$name" "$scenarios/$name-refusals.txt"
    loaded "$name" "$scenarios/$name-load.txt"
}

# What is here is a row for each word (tally.sh), or is called by itself: then all lies in one room.
built=$room

# made FOLDER/NAME: a driver's binary of its source, which is a file or a folder. Those of c/tests/legal have names that others have too: they lie in a folder of their own.
made() {
    local source=$1 name to=$built/$kind sources=("$1")
    name=$(basename "${source%.*}")
    ! is_left_out "$name" || return 0
    [ ! -d "$source" ] || sources=("$source"/*.c)
    [[ $source != */legal/* ]] || to=$built/$kind-legal
    $tests/image/sys.sh "$kind" "$built/kit-$kind" "$to/$name.sys" "${sources[@]}" > "$room/log" 2>&1 || { head -n 5 "$room/log"; tell 1 "$name, as it was built by $kind,"; }
}

# Requests whose drivers are all there; some need libcrypto.
may_be_played() {
    local name
    case $1 in digests | keys | guardian | vault) ldconfig -p | grep -q 'libcrypto\.so\.3' || return ;; esac
    while read -r name; do
        [ -f "$room/$kind/$name.sys" ] || return
    done < <(sed -n 's/^load \([^ ]*\).*/\1/p' "$tests/requests/$1.txt")
}

# Each routine that isn't modelled has a stub, which tells its limit.
limits() {
    local count
    count=$(cat c/include/kz*routines.h | grep -c '^KZ_ROUTINE')
    "$RUN" "$room/$kind/routines.sys" $tests/requests/routines.txt > "$room/out" && tail -n 1 "$room/out" | grep -q "told 0, limits $count$" && grep -v '^LIMIT' "$room/out" | sed '$d' | diff $tests/expected/routines.txt -
    tell $? "routines that aren't modelled by $kind"
}

# A right driver: nothing is told of it, in order, under every schedule with one preemption at most, and with programs that change what is read of their buffers.
silent() {
    local search name=$1 requests=$tests/legal/$1.txt scenario=$tests/legal/$1.scenario
    [ -f "$requests" ] || requests=$tests/legal/any.requests
    [ -f "$scenario" ] || scenario=$tests/scenarios/four-clients.txt
    sed "s/DRIVER/$name/" "$requests" > "$room/requests"
    sed "s/DRIVER/$name/" "$scenario" > "$room/scenario"
    "$RUN" "$built/$kind-legal/$name.sys" "$room/requests" > "$room/out" 2>&1 || { cat "$room/out"; false; }
    tell $? "$name of legal by $kind"
    for search in '--bound 1' '--changes 2 --bound 0'; do
        # shellcheck disable=SC2086 # two words or four
        timeout 300 "$built/explore" $search "$built/$kind-legal/$name.sys" "$room/scenario" > "$room/out" 2>&1 || { cat "$room/out"; false; }
        tell $? "$name of legal under $search by $kind"
    done
}

for kind in msvc mingw; do
    case $kind in
    msvc) tools=(python3 clang lld-link llvm-dlltool) ;;
    mingw) tools=(python3 x86_64-w64-mingw32-gcc x86_64-w64-mingw32-dlltool) ;;
    esac
    command -v "${tools[@]}" > "$room/found"
    [ "$(wc -l < "$room/found")" = ${#tools[@]} ] && [ -f /usr/x86_64-w64-mingw32/include/ddk/ntifs.h ] || {
        echo "binaries: none by $kind are tried: its toolchain or mingw-w64's headers aren't here"
        continue
    }
    mkdir -p "$room/$kind" "$room/$kind-legal"
    printf '#!/bin/sh\nexec "%s/serve" "%s/%s"/*.sys "$@"\n' "$room" "$room" "$kind" > "$room/server-$kind"
    chmod +x "$room/server-$kind"
    # The first one makes the headers and the libraries of all.
    made c/samples/nullfilter.c
    rows made c/samples/*.c
    for name in c/samples/*.c; do
        name=$(basename "$name" .c)
        is_asked samples && ! is_left_out "$name" || continue
        sed "s/DRIVER/$name/" $tests/scenarios/four-clients.txt > "$room/four.txt"
        sed "s/DRIVER/$name/" $tests/scenarios/load.txt > "$room/load.txt"
        refused "$name" "$room/four.txt"
        loaded "$name" "$room/load.txt"
        with_programs "$name"
        [ ! -x "$room/fltmount" ] || below_a_mount "$name"
    done
    is_asked drivers || continue
    rows made "$tests"/drivers/*.c "$tests"/drivers/*.cpp "$tests"/drivers/two-files "$tests"/misuse/*.c "$tests"/legal/*.c
    names=()
    for requests in "$tests"/requests/*.txt; do
        name=$(basename "$requests" .txt)
        ! may_be_played "$name" || names+=("$name")
    done
    rows played "${names[@]}"
    limits
    names=()
    for name in "$room/$kind-legal"/*.sys; do names+=("$(basename "$name" .sys)"); done
    rows silent "${names[@]}"
done

# Binaries that nobody here made: each is refused with a sentence, or laid out and bound; what of its imports isn't here is listed, and nothing else.
imports() {
    x86_64-w64-mingw32-objdump -p "$1" 2> /dev/null | sed -nE 's/^[[:space:]]+[0-9a-f]+[[:space:]]+[0-9]+[[:space:]]+([A-Za-z_][A-Za-z_0-9]*)$/\1/p' | sort -u
}
laid_out() {
    local status
    "$1" "$2" "$room/none.txt" > "$room/out" 2> "$room/err"
    status=$?
    ! grep -E 'Sanitizer|runtime error' "$room/err" || return 1
    case $status in
    3) [ "$(grep -c "can't be loaded: it is a program or a library of user mode" "$room/err")" = 1 ] ;;
    1) sed -n "s/.*\.sys: \([^ ]*\) of .*: a call of it is reported, and answers STATUS_NOT_SUPPORTED\$/\1/p" "$room/err" | sort -u | diff <(imports "$2" | grep -vxFf "$room/here") - ;;
    *) false ;;
    esac
}
wine=${WINE_DRIVERS:-/usr/lib/x86_64-linux-gnu/wine/x86_64-windows}
if ! is_asked wine; then
    :
elif [ -f "$wine/fltmgr.sys" ] && command -v x86_64-w64-mingw32-objdump > /dev/null; then
    printf '# nothing is loaded\n' > "$room/none.txt"
    # What a binary may import: the calls, and the variables.
    { nm "$room/run" | sed -n 's/.* [tT] kz_stub_//p'; grep -oE '\{"[A-Za-z_]+", &' c/image/kernel.c | cut -d'"' -f2; } | sort -u > "$room/here"
    ! has_sanitizers address,undefined || build sanitized --image --sanitize=address,undefined "$room/sanitized"
    for driver in "$wine"/*.sys; do
        laid_out "$room/run" "$driver"
        tell $? "$(basename "$driver") of Wine"
        [ -x "$room/sanitized" ] || continue
        laid_out "$room/sanitized" "$driver"
        tell $? "$(basename "$driver") of Wine under sanitizers"
    done
else
    echo "binaries: none of Wine are tried, since $wine has none (Debian: apt install libwine)"
fi
finish
