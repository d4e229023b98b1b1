#!/usr/bin/env bash
# image.sh [msvc] [mingw] : binaries of drivers, by the toolchains that are here, or by one of them. Each sample is made a .sys, run, and compared with what is stored of its source; exceptions, what
# compiled kernel code does by itself, a driver in C++; the drivers of the explorer's tests, and the decoder by which it sees what a binary reads and writes; files that can't run; changed files under
# sanitizers. SECONDS_OF_FUZZ is how long these are tried.
set -u
. "$(dirname "$0")/stored.sh"
. "$(dirname "$0")/tally.sh" image
. "$(dirname "$0")/layer.sh"

[ "$(uname -m)" = x86_64 ] || {
    echo "image: not tried, since binaries of drivers run on x86-64 alone"
    finish
    exit
}
users=()
for user in c/samples/user/*.c; do
    users+=(--user "$user")
done
build run --image "$room/run" c/samples/nullfilter.c "${users[@]}"
export RUN=$room/run
build explore --explore --image "$room/explore"
EXPLORE=$room/explore
build serve --serve --image "$room/serve"
! may_mount > /dev/null || make -s -C c fltmount PROGRAM="$room/fltmount"
build levels --image --main $tests/image/levels.c "$room/levels"

# Each place where the host calls a driver's function does so by the convention of who it is.
$tests/image/indirect.sh "$(c/libraries.sh host)"
tell $? "calls through pointers"

# What a binary and the host share, and mingw-w64's headers haven't.
mapfile -t words < <(c/build.sh --flags)
${CC:-cc} "${words[@]}" -fsyntax-only $tests/layouts.c
tell $? "structures of the filter manager"

# The reader: changed files, in all of the ways that a seed gives, and what it refuses.
if has_sanitizers address,undefined; then
    ${CC:-cc} -std=gnu11 -fshort-wchar -O1 -g -Wall -Wextra -Werror -fsanitize=address,undefined -fno-sanitize-recover=undefined -Ic -Ic/include -o "$room/reader" \
        $tests/image/reader.c c/image/{bytes,headers,layout,imports,exports,streams,pdb,variables,instruction,access}.c
    tell $? "the reader, as it was built under sanitizers,"
    "$room/reader" "${SECONDS_OF_FUZZ:-5}" > "$room/reader.out" 2>&1 || { cat "$room/reader.out"; false; }
    tell $? "changed files"
    build sanitized --image --sanitize=address,undefined "$room/sanitized"
fi
${CC:-cc} -std=gnu11 -fshort-wchar -O1 -g -Wall -Wextra -Werror -Ic -Ic/include -o "$room/decode" $tests/image/decode.c c/image/{bytes,headers,layout,instruction,access}.c && "$room/decode"
tell $? "what instructions do with memory"
if command -v python3 > /dev/null; then
    python3 $tests/image/bars.py "$RUN" "$room/bars"
    tell $? "files that can't run"
fi

# which KIND: whether the toolchain is here, and python3, which makes its headers.
has() {
    local tool
    for tool in "$@"; do
        command -v "$tool" > /dev/null || { echo "image: drivers by $kind aren't tried, since there is no $tool here"; return 1; }
    done
    [ -f /usr/x86_64-w64-mingw32/include/ddk/ntifs.h ] || { echo "image: drivers by $kind aren't tried, since there are no headers of mingw-w64 here"; return 1; }
}

# The compiler of Rust that has a core library of Windows.
rust_of_windows() {
    local rust
    for rust in rustc /usr/bin/rustc; do
        if [ -d "$("$rust" --print sysroot 2> /dev/null)/lib/rustlib/x86_64-pc-windows-gnu" ]; then
            echo "$rust"
            return
        fi
    done
    return 1
}

# What is here is a row for each word (tally.sh), or is called by itself: then all lies in one room.
built=$room

# A driver's binary of its source.
made() {
    local source=$1 name
    name=$(basename "$source")
    name=${name%.*}
    ! is_left_out "$name" || return 0
    case $kind-$name in
    *-reader | *-decode | *-levels) return ;;
    msvc-cookie) local -x WORDS='-fstack-protector-strong -Xclang -cfguard' ;;
    mingw-rust) RUSTC=$(rust_of_windows) && export RUSTC || { echo "image: no driver in Rust is tried, since no rustc here builds for x86_64-pc-windows-gnu"; return; } ;;
    mingw-classes) command -v x86_64-w64-mingw32-g++ > /dev/null || { echo "image: no driver in C++ is tried by mingw, since there is no x86_64-w64-mingw32-g++ here"; return; } ;;
    esac
    $tests/image/sys.sh "$kind" "$built/kit-$kind" "$built/$kind/$name.sys" "$source" > "$room/$name.log" 2>&1 || { head -n 5 "$room/$name.log"; tell 1 "$name, as it was built by $kind,"; }
}

# The requests of a driver in c/tests/image. Where an endless stack ends, in the probe or behind it, is a matter of what else lies on it.
asked() {
    local name=$1 driver
    driver=$built/$kind/$(sed -n 's/^load //p' "$tests/image/$name.txt" | head -n 1).sys
    [ -f "$driver" ] || return
    { "$RUN" "$driver" "$tests/image/$name.txt"; echo "status $?"; } 2> "$room/$name.err" | sed '/^CRASH SIGSEGV: filter sections/s/sections\.c:[0-9]*/sections.c:57/' > "$room/$name.out"
    diff "$tests/image/$name.out" "$room/$name.out"
    tell $? "$name by $kind"
}

# Nothing is told of a sample, as of its source.
silent() {
    local name=$1 bound=0
    [ "$name" != swapbuffers ] || bound=1
    [ -f "$built/$kind/$name.sys" ] || return
    sed "s/DRIVER/$name/" $tests/scenarios/four-clients.txt > "$room/four.txt"
    "$EXPLORE" --bound $bound "$built/$kind/$name.sys" "$room/four.txt" > "$room/out" 2>&1 && grep -q "^bound $bound: .*told 0, races 0, stuck 0, crashed 0" "$room/out" || { cat "$room/out"; false; }
    tell $? "$name with four clients by $kind"
}

# What may not be touched there is told in each schedule, also behind one that a crash ended.
touched() {
    local asked=$1 bound number schedules wanted
    printf 'load sections\nattach sections v0 first 300\ncreate v0 new a as a\nwrite a 0 3132333435363738393031\nclient x: read a %s 1; read a %s 1\nclient y: read a 0 1\n' "$asked" "$asked" > "$room/asked.txt"
    "$EXPLORE" --bound 1 "$built/$kind/sections.sys" "$room/asked.txt" > "$room/out" 2>&1
    read -r bound number schedules <<< "$(sed -n 's/^bound \(1\): \([0-9]*\) \(schedules\).*/\1 \2 \3/p' "$room/out")"
    case $asked in 0) wanted='told 0, races 0, stuck 0, crashed 0' ;; 10) wanted="told 0, races 0, stuck 0, crashed $number" ;; *) wanted="told $number, races 0, stuck 0, crashed 0" ;; esac
    [ "$bound$schedules" = 1schedules ] && grep -q "^bound 1: .*; $wanted\$" "$room/out" || { cat "$room/out"; false; }
    tell $? "sections under the explorer by $kind, of $asked,"
}

# explored NAME: a driver of c/tests/misuse/schedules as a binary, under its scenario. It ends as its source does, and the same is found; where no access of its code is a point, to the letter. What
# is called a race may be told in other words: a binary doesn't say what is volatile.
explored() {
    local name=$1 scenario=$tests/scenarios/$1.txt status finds words
    status=$(cat "$tests/expected/explore-$name.status" 2> /dev/null || sed -n 's/^# status: //p' "$scenario" | grep . || echo 0)
    finds=$(finds_of "$scenario" | sed 's/\ba \(read\|write\) at/a\\(n interlocked\\)\\? \1 at/g')
    [ "$name" != counter ] || finds=RACE
    read -r -a words <<< "$(sed -n 's/^# words: //p' "$scenario")"
    "$tests/image/sys.sh" "$kind" "$built/kit-$kind" "$built/$name.sys" "$tests/misuse/schedules/$name.c" > "$room/$name.log" 2>&1
    "$EXPLORE" "$built/$name.sys" "${words[@]}" "$scenario" > "$room/$name.out" 2>&1
    [ $? = "$status" ] && case ${finds:-stored} in
    nothing) ! grep -q 'schedules:$' "$room/$name.out" ;;
    stored)
        case $name-$kind in
        lostrelease-* | refusal-* | settwice-* | lastrelease-msvc) sed 's/, [0-9.]* s, /, /' "$room/$name.out" | diff "$tests/expected/explore-$name.out" - ;;
        *) true ;;
        esac
        ;;
    *) grep -q "^    $finds" "$room/$name.out" ;;
    esac || { cat "$room/$name.log" "$room/$name.out"; false; }
    tell $? "$name under the explorer by $kind"
}

samples=(c/samples/*.c)
samples=("${samples[@]##*/}")
samples=("${samples[@]%.c}")
[ $# -gt 0 ] || set -- msvc mingw
for kind in "$@"; do
    case $kind in
    msvc) has python3 clang lld-link llvm-dlltool llvm-addr2line || continue ;;
    mingw) has python3 x86_64-w64-mingw32-gcc x86_64-w64-mingw32-dlltool || continue ;;
    esac
    mkdir -p "$room/$kind"
    # The first one makes the headers and the libraries of all.
    made c/samples/nullfilter.c
    rows made c/samples/*.c "$tests"/drivers/{majors,asker,layer}.c "$tests"/misuse/{first,mistakes,kept}.c "$tests"/image/*.c "$tests"/image/*.cpp "$tests"/image/*.rs
    names=()
    for name in "${samples[@]}" first mistakes kept; do
        [ ! -f "$room/$kind/$name.sys" ] || names+=("$name")
    done
    rows played "${names[@]}"
    names=()
    for requests in "$tests"/image/*.txt; do
        [[ $requests = */jumps.txt ]] || names+=("$(basename "$requests" .txt)")
    done
    rows asked "${names[@]}"
    # The loader under sanitizers, and under valgrind.
    if [ -x "$room/sanitized" ]; then
        for name in inlines sections; do
            { "$room/sanitized" "$room/$kind/$name.sys" "$tests/image/$name.txt"; echo "status $?"; } > "$room/out" 2> "$room/err"
            diff "$tests/image/$name.out" "$room/out" && ! grep -E 'Sanitizer|runtime error' "$room/err"
            tell $? "$name under sanitizers by $kind"
        done
        "$room/sanitized" "$room/$kind"/*.sys $tests/requests/ctx.txt 2> "$room/err" | diff $tests/expected/ctx.out - && ! grep -E 'Sanitizer|runtime error' "$room/err"
        tell $? "all binaries under sanitizers by $kind"
    fi
    look "ctx-$kind" "$RUN" "$room/$kind/ctx.sys" $tests/requests/ctx.txt
    # The decoder, over code of each kind.
    if command -v llvm-objdump > /dev/null; then
        for source in c/samples/swapbuffers.c c/samples/passthrough.c c/samples/ctx.c; do
            LEVEL=-O2 $tests/image/sys.sh "$kind" "$room/kit-$kind" "$room/$kind/$(basename "$source" .c).fast" "$source" > "$room/fast.log" 2>&1
        done
        $tests/image/decode.sh "$room/decode" "$room/$kind"/*.sys "$room/$kind"/*.fast
        tell $? "instructions by $kind"
    fi
    # The other words: a load by threads, schedules, a server.
    sed 's/DRIVER/ctx/' $tests/scenarios/load.txt > "$room/load.txt"
    "$RUN" "$room/$kind/ctx.sys" --load "$room/load.txt" --threads 4 --seconds 2 > "$room/load.out" 2>&1 && tail -n 1 "$room/load.out" | grep -q 'leaked references 0, told 0, limits 0$'
    tell $? "a load by $kind"
    # Where a scenario says `# source: WHY` its driver is tried as a source alone.
    names=()
    for source in "$tests"/misuse/schedules/*.c; do
        name=$(basename "$source" .c)
        grep -q '^# source: ' "$tests/scenarios/$name.txt" || names+=("$name")
    done
    rows explored "${names[@]}"
    rows silent "${samples[@]}"
    rows touched 0 1 2 3 4 8 9 10
    # An update that is one instruction is a read and a write; and what was found is found again.
    LEVEL=-O2 explored lostupdate
    LEVEL=-O2 explored counter
    [ $? = 0 ] && "$EXPLORE" --replay "$(sed -n "s/^  --replay '\\(.*\\)'$/\\1/p" "$room/counter.out" | head -n 1)" "$room/counter.sys" $tests/scenarios/counter.txt | grep -q 'RACE: an update without lock'
    tell $? "a schedule that is played again by $kind"
    # A trace has the source's lines and the names of variables, from a .pdb.
    if [ "$kind" = msvc ]; then
        explored counter
        "$EXPLORE" --trace --replay 'a*4 b*9 a*6' "$room/counter.sys" $tests/scenarios/counter.txt > "$room/out"
        grep -q 'counter.c:11 *gReads++;' "$room/out" && grep -q 'reads in order gReads' "$room/out" && grep -q 'writes in order gReads' "$room/out" || { cat "$room/out"; false; }
        tell $? "a trace by $kind"
    fi
    ./flt run "$room/$kind/contentscan.sys" --user c/samples/user/scanservice.c $tests/requests/contentscan.txt 2> "$room/flt.err" | diff $tests/expected/contentscan.out -
    tell $? "flt run by $kind"
    if [ "$kind" = msvc ] && [ -x "$room/reader" ]; then
        "$room/reader" "${SECONDS_OF_FUZZ:-3}" "$room/msvc/contentscan.sys" "$room/msvc/contentscan.pdb" > "$room/reader.out" 2>&1 || { cat "$room/reader.out"; false; }
        tell $? "changed files of lines"
        # Lines of another build aren't used.
        cp "$room/msvc/ctx.sys" "$room/other.sys"
        cp "$room/msvc/contentscan.pdb" "$room/other.pdb"
        printf 'load other\n' > "$room/other.txt"
        "$RUN" "$room/other.sys" "$room/other.txt" 2>&1 | grep -q "other.pdb isn't used: it is of another build"
        tell $? "lines of another build"
    fi
    # A driver that may lock its pages isn't told of paging.
    sed 's/    First("in DriverEntry");/    if (RegistryPath == NULL)\n        MmLockPagableDataSection((PVOID)\&gLimit);/' $tests/image/sections.c > "$room/locked.c"
    "$tests/image/sys.sh" "$kind" "$room/kit-$kind" "$room/locked.sys" "$room/locked.c"
    sed 's/sections/locked/; /^read a 4/,$d' $tests/image/sections.txt > "$room/locked.txt"
    "$RUN" "$room/locked.sys" "$room/locked.txt" > "$room/out" 2> "$room/err"
    [ $? = 0 ] && grep -q 'paged code at DISPATCH_LEVEL' "$room/out"
    tell $? "pages that may be locked by $kind"
    # A jump that stands for a call has its line.
    LEVEL=-O2 "$tests/image/sys.sh" "$kind" "$room/kit-$kind" "$room/$kind/jumps.sys" $tests/image/jumps.c
    { "$RUN" "$room/$kind/jumps.sys" $tests/image/jumps.txt; echo "status $?"; } 2>&1 | diff $tests/image/jumps.out -
    tell $? "jumps to the kit by $kind"
    run=("$RUN" "$room/$kind/layer.sys") explore=("$EXPLORE" "$room/$kind/layer.sys")
    layer_ways " by $kind" --bound 1
    # What isn't here is said as the driver is loaded.
    "$RUN" "$room/$kind/inlines.sys" $tests/image/inlines.txt 2>&1 > "$room/out" | sed 's/.*inlines.sys: //' | LC_ALL=C sort > "$room/missing"
    printf '%s\n' "HeadlessDispatch of ntoskrnl.exe isn't in this kit: a call of it is reported, and answers STATUS_NOT_SUPPORTED" \
        'RtlInitUnicodeStrings of ntoskrnl.exe is exported by no Windows that is known here; the nearest is RtlInitUnicodeString: a call of it is reported, and answers STATUS_NOT_SUPPORTED' |
        diff - "$room/missing"
    tell $? "imports that aren't here by $kind"
    # The IRQL is read and set without a trap, where there is room for a jump: at all places but one.
    said=$("$room/levels" "$room/$kind/inlines.sys" 2> /dev/null)
    [ "${said% of *}" -ge 5 ] && [ "$said" = "$((${said#* of } - 1)) of ${said#* of }" ] || { echo "$said"; false; }
    tell $? "the IRQL by $kind"
    # Words for machines, and each refusal once, by flt.
    ./flt run "$room/$kind/jumps.sys" --quiet --junit "$room/report.xml" $tests/image/jumps.txt > "$room/out" 2> "$room/err"
    [ $? = 5 ] && ! grep -q '^>' "$room/out" && [ "$(grep -c '^TOLD KZ0143' "$room/out")" = 2 ] && [ "$(grep -c 'KZ0143".*<failure message=' "$room/report.xml")" = 2 ]
    tell $? "a report by $kind"
    ./flt run --fail-each "$room/refusal.sys" $tests/scenarios/refusal.txt > "$room/out" 2>&1
    [ $? = 139 ] && grep -q '^bound 0: 10 schedules' "$room/out"
    tell $? "each refusal once by $kind"
    # A server of binaries, and the mount above it.
    if why=$(may_mount); then
        mkdir -p "$room/served-$kind"
        cp $tests/serve/drivers/*.c "$room/served-$kind"
        rm "$room/served-$kind/names.c" # mingw-w64's headers have no flags of a rename
        cp c/samples/passthrough.c "$room/served-$kind/meter.c"
        cp c/samples/nullfilter.c "$room/served-$kind/carry.c"
        for source in "$room/served-$kind"/*.c; do
            "$tests/image/sys.sh" "$kind" "$room/kit-$kind" "${source%.c}.sys" "$source"
        done
        printf '#!/bin/sh\nexec "%s/serve" "%s/served-%s"/*.sys "$@"\n' "$room" "$room" "$kind" > "$room/server-$kind"
        chmod +x "$room/server-$kind"
        $tests/mount/check.py --server "$room/server-$kind" --mount "$room/fltmount" --renames all --wide calls late > "$room/out" 2>&1 || { cat "$room/out"; false; }
        tell $? "a mount above a server by $kind"
    else
        untried "$why, for the mount above binaries"
        tell $? "a mount above a server by $kind"
    fi
    # A driver of source beside one that is a binary.
    printf 'load nullfilter\nload ctx\nattach ctx v0 first 300\ncreate v0 new a as a\nclose a\n' > "$room/both.txt"
    "$RUN" "$room/$kind/ctx.sys" "$room/both.txt" | grep -q '^contexts born 3, cleaned 3, leaked references 0, told 0, limits 0$'
    tell $? "source and binary at once by $kind"
done
finish
