#!/usr/bin/env bash
# The host's tests: the program of the archive's calls, stored requests through the drivers of c/samples and c/tests, each also under valgrind, main programs, reports, a folder,
# CMake, and random requests: 40,000, with --whole 160,000.
set -u
WHOLE=${1:-}
. "$(dirname "$0")/tally.sh" host
many=5000 # random requests under the address sanitizer
[ "$WHOLE" != --whole ] || many=20000

c/libraries.sh > /dev/null
tell $? "the host's libraries, as they were built,"
support=$(c/archive.sh --support)
${CC:-cc} -std=c11 -O1 -g -Wall -Wextra -Werror -Ic/include -o "$room/calls" $tests/programs/calls.c "$KAZDRIN_LIB" "$support/libos_c.a" "$support/liblibc_c.a"
tell $? "calls, as it was built,"
try calls "$room/calls"
look calls "$room/calls"

# A compiler that compares frames with the end of the kernel's stack.
has_bound=$(! ${CC:-cc} --version 2> /dev/null | grep -q clang && [ "$(uname -m)" = x86_64 ] && echo yes)

# One program of all drivers plays all requests.
drivers=(c/samples/*.c "$tests"/misuse/*.c "$tests"/drivers/*.c "$tests"/drivers/two-files)
command -v "${CXX:-c++}" > /dev/null && drivers+=("$tests"/drivers/*.cpp)
for user in c/samples/user/*.c "$tests"/user/*.c; do
    drivers+=(--user "$user")
done
build drivers "$room/drivers" "${drivers[@]}"
for requests in "$tests"/requests/*.txt; do
    name=$(basename "$requests" .txt)
    case $name in
    plus | blocks) command -v "${CXX:-c++}" > /dev/null || continue ;;
    digests | keys | guardian | vault) ldconfig -p | grep -q 'libcrypto\.so\.3' || continue ;;
    deep) [ -n "$has_bound" ] || continue ;;
    esac
    # Where nothing is stored, its own expectations are all.
    if [ -f "$tests/expected/$name.out" ]; then
        try "$name" "$room/drivers" "$requests"
    else
        "$room/drivers" "$requests" > "$room/$name.out" || { cat "$room/$name.out"; false; }
        tell $? "$name"
    fi
done

# Each call that answers a constant has a reason.
if command -v python3 > /dev/null; then
    $tests/scripts/constants.py > "$room/constants.out" || { grep 'NO REASON' "$room/constants.out"; false; }
    tell $? "calls that answer a constant"
fi

# Tables of what NTFS answers: each row as requests, all by one program.
if command -v python3 > /dev/null; then
    mkdir "$room/tables"
    $tests/scripts/tables.py $tests/tables "$room/tables" > "$room/tables.out" || { cat "$room/tables.out"; false; }
    tell $? "tables, as requests"
    for table in creates names access oplocks sharing; do
        "$room/drivers" --quiet "$room/tables/$table.txt" && grep -q "^$table: [0-9]* rows" "$room/tables.out"
        tell $? "the table of $table"
    done
fi

build run --main $tests/programs/run.c "$room/run" c/samples/passthrough.c
try run "$room/run"
[ -z "${KAZDRIN_QUICK:-}" ] || {
    finish
    exit
}

# A crash says where it was, and ends the program as it would have.
printf 'load crash\nattach 0 0 c 100\ncreate 0 new a\nread 0 0 1\n' > "$room/crash.txt"
try crash "$room/drivers" "$room/crash.txt" 2> /dev/null
# In a call that the driver makes, too: of nothing, of a copy, of the kit.
for row in '0 15' '1 18' '2 22'; do
    read -r which line <<< "$row"
    printf 'load crashes\nattach 0 0 c 100\ncreate 0 new a\nread 0 %s 1\n' "$which" > "$room/crashes.txt"
    "$room/drivers" "$room/crashes.txt" 2> /dev/null | grep -q "^CRASH SIGSEGV: filter crashes, instance 0, preoperation, .*, at crashes\.c:$line, from crashes\.c:38, "
    tell $? "a crash in a call, $which"
done
printf 'load crashes\nattach 0 0 c 100\ncreate 0 new a\nread 0 3 1\n' > "$room/crashes.txt"
"$room/drivers" "$room/crashes.txt" > "$room/crashes.out" 2> /dev/null
grep -q '^TOLD KZ0192 ExRaiseStatus: exception 0x80000002, which nobody takes: filter crashes, .*, at crashes\.c:26, from crashes\.c:38, ' "$room/crashes.out" &&
    grep -q '^CRASH SIGABRT: filter crashes, instance 0, preoperation, .*, at crashes\.c:26, ' "$room/crashes.out" || { cat "$room/crashes.out"; false; }
tell $? "an exception that nobody takes"
# Exceptions in a source: each kind as in its binary (part image), however it is optimized.
exceptions() {
    KZAPI=$1 build "exceptions at $1" "$room/raises" $tests/image/raises.c
    { "$room/raises" $tests/image/raises.txt; echo "status $?"; } 2> /dev/null | diff $tests/image/raises.out -
    tell $? "exceptions at $1"
}
exceptions -O0
exceptions -O1
exceptions '-O2 -Wno-array-bounds'

# More of the kernel's stack than there is: at the function that has it, by threads too. What isn't optimized isn't looked at.
deep() {
    "$@" > "$room/deep.out" 2>&1
    [ $? = 5 ] && [ "$(grep -oE '^TOLD KZ0195 .*, at deep\.c:[0-9]+' "$room/deep.out" | sed 's/.*://' | sort -u | tr '\n' ' ')" = '24 35 8 ' ] || { cat "$room/deep.out"; false; }
    tell $? "the kernel's stack, $2"
}
printf 'load deep\nattach 0 0 d 100\ncreate 0 new a\nclient r: read 0 0 40; read 0 0 8; write 0 0 61; flush 0\n' > "$room/deep.load"
sed '/^expect/d' $tests/requests/deep.txt > "$room/deep.txt"
if [ -n "$has_bound" ]; then
    deep "$room/drivers" "$room/deep.txt"
    deep "$room/drivers" --load "$room/deep.load" --threads 2 --seconds 0.5
fi
KZAPI=-O0 build "without optimization" "$room/deep" $tests/misuse/deep.c
"$room/deep" "$room/deep.txt" > "$room/deep.out" || { cat "$room/deep.out"; false; }
tell $? "the kernel's stack, without optimization"

# Which calls are refused, each once for its line; what else is said is the same.
if [ "$(uname -m)" = x86_64 ]; then
    "$room/drivers" --quiet --refusals $tests/requests/refusing.txt 2>&1 | diff - $tests/expected/refusing.txt
    tell $? "calls that are refused"
    for name in ownio statements mistakes; do
        "$room/drivers" --refusals "$tests/requests/$name.txt" 2> "$room/refusals.err" | diff - <("$room/drivers" "$tests/requests/$name.txt") && grep -q '^refused ' "$room/refusals.err"
        tell $? "$name, and what it is refused"
    done
fi

# What memory that nobody wrote decides is found by two fills of it: in what is said, in an answer, in a status. Of right drivers nothing is.
printf 'load unwritten\nattach 0 0 u 100\ncreate 0 new a as a\nflush a\nread a 0 4\nread a 0 8\nread a 0 16\nsetsize a 2\nwrite a 0 6162\n' > "$room/unwritten.txt"
"$room/drivers" --fill "$room/unwritten.txt" > "$room/unwritten.out" 2>&1
[ $? = 5 ] && grep '^TOLD' "$room/unwritten.out" | diff - "$tests/expected/unwritten.txt"
tell $? "memory that nobody wrote"
for name in directories swapbuffers contentscan cipher; do
    "$room/drivers" --fill "$tests/requests/$name.txt" > "$room/filled.out" 2>&1 || { cat "$room/filled.out"; false; }
    tell $? "$name under two fills"
done

# A callback that doesn't come to an end is said with its line: one without a call, one that waits again and again, a timer's; by threads; and where a signal ends the program.
endless() {
    local wanted=$1
    shift
    timeout 600 "$room/drivers" --patience 1 "$@" > "$room/endless.out" 2> "$room/endless.err"
    [ $? = 6 ] && grep -q "^ENDLESS: filter forever, .*at forever\.c:$wanted" "$room/endless.out" || { cat "$room/endless.out"; false; }
    tell $? "a callback without an end, $*"
}
for request in 'read a 0 5' 'write a 0 61' 'flush a'; do
    printf 'load forever\nattach 0 0 f 100\ncreate 0 new a as a\n%s\n' "$request" > "$room/forever.txt"
    case $request in
    read*) wanted='1[45], ' ;;
    write*) wanted='2[89], ' ;;
    *) wanted='4[01], line 4: flush a$' ;;
    esac
    endless "$wanted" "$room/forever.txt"
done
printf 'load forever\nattach 0 0 f 100\ncreate 0 new a\nclient r: read 0 0 5\n' > "$room/forever.txt"
endless '1[45], ' --load "$room/forever.txt" --threads 2 --seconds 1
for seconds in 2 10 60; do # a loaded machine may not have come there yet
    timeout -s INT $seconds "$room/drivers" --patience 600 --load "$room/forever.txt" --threads 1 > "$room/endless.out" 2>&1
    ! grep -q '^INTERRUPTED: r-1: filter forever, instance 0, preoperation' "$room/endless.out" || break
done
grep -q '^INTERRUPTED: r-1: filter forever, instance 0, preoperation' "$room/endless.out"
tell $? "a load that is interrupted"

# Much of everything: records, contexts and locks by the thousand, in a time that grows no faster than they do.
{
    printf 'load many\nattach 0 0 m 100\ncreate 0 new a\nflush 0\n'
    for at in $(seq 20000); do echo "read 0 0 5"; done
    for at in $(seq 3000); do echo "create 0 new f$at"; done
} > "$room/many.txt"
(ulimit -t 20 && "$room/drivers" --quiet "$room/many.txt") > "$room/many.out" && [ ! -s "$room/many.out" ]
tell $? "much of everything"

# Limits count if they are to, and what is allowed isn't told.
"$room/drivers" --strict $tests/requests/left.txt > "$room/strict.out"
[ $? = 5 ] && tail -n 1 "$room/strict.out" | grep -q "told 4, limits 4"
tell $? "strict"
"$room/drivers" --allow KZ0130 $tests/requests/answers.txt > "$room/allow.out"
[ $? = 5 ] && ! grep -q KZ0130 "$room/allow.out" && tail -n 1 "$room/allow.out" | grep -q "told 8, limits 2"
tell $? "allow"

# A word that says nothing is refused where it stands, with the reason.
wrong=0
while IFS='#' read -r words why; do
    printf 'load opens\n%s\n' "$words" > "$room/wrong.txt"
    "$room/drivers" --quiet "$room/wrong.txt" > /dev/null 2> "$room/wrong.out"
    [ $? = 2 ] && grep -qxF "$room/wrong.txt:2: not understood: $why" "$room/wrong.out" || {
        wrong=$((wrong + 1))
        cat "$room/wrong.out"
    }
done <<'WORDS'
create 0 nwe a#there is no `nwe`; the nearest is new
create 0 newly a#there is no `newly`; the nearest is new
create 0 sometimes a#there is no `sometimes`
create 0 new y share#nothing stands behind `share`
create 0 new y share 1 share 2#`share` stands there twice
create 0 new y access GENERIC_READ|#there is no ``
create 0 new y access GENERIC_REED#there is no `GENERIC_REED`; the nearest is GENERIC_READ
create 0 new y options 0x1000000000#`0x1000000000` is no number of 32 bits
create 0 new y attributes FILE_SHARE_READ#there is no `FILE_SHARE_READ`
create 0 new y as#nothing stands behind `as`
create 0 new y as 9#`9` is no name: it is too long, or begins with a digit
create 0 new y shrae 1#`shrae` is none of access, share, options, attributes, as, in
create v7 new y#no volume is named v7
read a 0 5#no handle is named a
write 0 0 6#`6` is no bytes, of two digits from 00 to ff each
write 0 0 6g#`6g` is no bytes, of two digits from 00 to ff each
read 0 0 99999999#99999999 is more than 32768
read 0 x 1#`x` is no number
detach upper#no instance is named upper
unload lower#no filter is named lower
expect stauts 0#`stauts` is none of status, info, bytes, says, callbacks, told, held
expect status#expect status has one word behind it, and each expectation a line of its own
WORDS
[ "$wrong" = 0 ]
tell $? "words that aren't understood"

# What would pass for nothing doesn't: an expectation before any request, a request of a handle that isn't there, a report that can't be written.
printf 'expect status 0\nload opens\n' > "$room/early.txt"
"$room/drivers" --quiet "$room/early.txt" > /dev/null 2> "$room/early.out"
[ $? = 2 ] && grep -qxF "$room/early.txt:1: not understood: there is no request before it" "$room/early.out"
tell $? "an expectation before any request"
printf 'load opens\nattach 0 0 o 100\ncreate 0 new y\nread 7 0 1\nexpect status 14\n' > "$room/absent.txt"
"$room/drivers" --quiet "$room/absent.txt" > /dev/null && sed -i '$d' "$room/absent.txt" && ! "$room/drivers" --quiet "$room/absent.txt" > /dev/null 2> "$room/absent.out" &&
    grep -qxF "$room/absent.txt:4: \`read 7 0 1\` was refused, and no \`expect status\` after it says so" "$room/absent.out"
tell $? "a request of a handle that isn't there"
sed -i '$d' "$room/absent.txt"
"$room/drivers" --quiet --junit "$room/nowhere/report.xml" "$room/absent.txt" > /dev/null 2> "$room/absent.out"
[ $? = 3 ] && grep -qxF "$room/nowhere/report.xml: can't be written" "$room/absent.out"
tell $? "a report that can't be written"

# One line a place: what comes up again is counted.
{
    printf 'volume 0 uncached\nload answers\nattach 0 0 a 100\ncreate 0 new denied\n'
    for at in $(seq 1000); do echo "write 0 0 61626364"; done
} > "$room/again.txt"
"$room/drivers" "$room/again.txt" > "$room/again.out"
[ $? = 5 ] && [ "$(grep -c '^TOLD KZ0130' "$room/again.out")" = 2 ] && grep -q "^TOLD KZ0130 FLT_IO_PARAMETER_BLOCK: told 999 more times: .*, in answers.c:" "$room/again.out" &&
    tail -n 1 "$room/again.out" | grep -q "told 1002, "
tell $? "one line a place"

# Each routine that isn't modelled links, and tells its limit; what is modelled beside them answers as the kit does.
"$room/drivers" $tests/requests/routines.txt > "$room/routines.out" && tail -n 1 "$room/routines.out" | grep -q "told 0, limits $(cat c/include/kz*routines.h | grep -c '^KZ_ROUTINE')$" &&
    grep -v '^LIMIT' "$room/routines.out" | sed '$d' | diff $tests/expected/routines.txt -
tell $? "routines that aren't modelled"

# What each number means: the program has the rows of the page.
"$room/drivers" --explain all > "$room/rows" && grep '^| KZ0' docs/TOLD.md | diff - "$room/rows"
tell $? "each row of docs/TOLD.md"
[ "$("$room/drivers" --explain KZ0141 | sed -n 2p)" = "on Windows: a leak; the Verifier stops" ] && ! "$room/drivers" --explain KZ0999 2> "$room/none.err" && grep -q KZ0999 "$room/none.err"
tell $? "explain"

# Expectations: their exit statuses, and reports for other programs.
"$room/drivers" --allow KZ0141 --json --junit "$room/expects.xml" $tests/requests/expects.txt > "$room/expects.json"
tell $? "expectations that are met"
printf 'load ctx\nexpect status 7\nexpect callbacks entry:ctx\n' > "$room/unmet.txt"
"$room/drivers" --quiet --junit "$room/unmet.xml" "$room/unmet.txt" > "$room/unmet.out"
[ $? = 1 ] && [ ! -s "$room/unmet.out" ]
tell $? "an expectation that isn't met"
"$room/drivers" --quiet "$room/unmet.txt" 2>&1 > /dev/null | diff - <(printf '%s:2: expected status 7, and there is status 0\n' "$room/unmet.txt")
tell $? "what was expected, and what there is"
printf 'load ctx\nlaod ctx\nunload 0\n' > "$room/wrong.txt"
"$room/drivers" "$room/wrong.txt" > "$room/wrong.out" 2> "$room/wrong.err"
[ $? = 2 ] && grep -q "wrong.txt:2: not understood: there is no request laod; the nearest is load$" "$room/wrong.err"
tell $? "a line that isn't understood"
printf 'load ctx\nattach 0 0 one\n' > "$room/wrong.txt"
"$room/drivers" "$room/wrong.txt" > "$room/wrong.out" 2> "$room/wrong.err"
[ $? = 2 ] && grep -q "wrong.txt:2: not understood: attach has 4 to 5 words behind it$" "$room/wrong.err"
tell $? "a line of too few words"
printf 'load ctx\ncreate 0 new a as h\nread h 0 1\nread g 0 1\n' > "$room/wrong.txt"
"$room/drivers" "$room/wrong.txt" > "$room/wrong.out" 2> "$room/wrong.err"
[ $? = 2 ] && grep -q "wrong.txt:4: not understood: no handle is named g$" "$room/wrong.err"
tell $? "a handle that isn't there"
# A run that tried nothing, or not what was meant, is no success, and says so.
says() {
    "$room/drivers" "$3" > "$room/green.out" 2> "$room/green.err"
    [ $? = "$1" ] && grep -q "$2" "$room/green.err"
}
printf 'load none\ncreate 0 new a\n' > "$room/green.txt"
says 1 'green.txt:1: `load none` was refused' "$room/green.txt"
tell $? "a load that is refused"
printf 'load ctx\nattach 0 0 one\nattach 0 0 two 1x\n' > "$room/green.txt"
sed -i '2d' "$room/green.txt"
says 1 'green.txt:2: `attach 0 0 two 1x` was refused' "$room/green.txt"
tell $? "an attach that is refused"
printf 'load ctxx\nexpect info 0\n' > "$room/green.txt"
says 1 'green.txt:1: `load ctxx` was refused, and no `expect status` after it says so; the nearest is ctx$' "$room/green.txt"
tell $? "a load that is refused, with an expectation of something else"
printf 'load CTX\nattach 0 0 c 100\ncreate 0 new a\nexpect status STATUS_ACESS_DENIED\n' > "$room/green.txt"
says 2 'green.txt:4: not understood: there is no status `STATUS_ACESS_DENIED`; the nearest is STATUS_ACCESS_DENIED$' "$room/green.txt"
tell $? "a status that isn't there, and a driver in other letters"
printf 'load ctx\nexpect told KZ0999\n' > "$room/green.txt"
says 2 'green.txt:2: not understood: there is no report `KZ0999`: docs/TOLD.md has all$' "$room/green.txt"
tell $? "a report that isn't there"
printf 'load ctx\nclient a: read 0 0 1\n' > "$room/green.txt"
says 2 'green.txt:2: not understood: this is a scenario: --load plays it by threads, and a program that c/build.sh --explore builds plays it in every order$' "$room/green.txt"
tell $? "a scenario as requests"
# A word that isn't one is named, with the nearest.
names_word() {
    "$room/drivers" "${@:2}" < /dev/null > "$room/word.out" 2> "$room/word.err"
    [ $? = 2 ] && [ ! -s "$room/word.out" ] && grep -qF -e "$1" "$room/word.err"
    tell $? "the words ${*:2}"
}
names_word 'there is no word --qiet; the nearest is --quiet (--help shows all)' --qiet
names_word '--load: a value is missing after it (--help shows all)' --load
names_word '--threads: this is none of its values: x (--help shows all)' --threads x
names_word '--dispatch: this is none of its values: some (--help shows all)' --dispatch some
names_word '--format: this is none of its values: xml (--help shows all)' --format xml
names_word '--junit writes the report of one file of requests (--help shows all)' --junit a b c
printf 'load none\n# it is none\n\nexpect status 6\n' > "$room/green.txt"
"$room/drivers" "$room/green.txt" > "$room/green.out" 2> "$room/green.err" && [ ! -s "$room/green.err" ]
tell $? "a load that is to be refused"
printf 'load ctx\nunload 0\n' > "$room/green.txt"
says 1 'green.txt: no callback of ctx was called: attach it, and ask for what it registered' "$room/green.txt"
tell $? "a driver of which nothing is called"
printf 'load ctx\nexpect status 0\nunload 0\n' > "$room/green.txt"
"$room/drivers" "$room/green.txt" > "$room/green.out" 2> "$room/green.err" && [ ! -s "$room/green.err" ]
tell $? "a driver of which the loading is expected"
# Nor is one whose requests for files no driver hears of, whatever is expected of their answers; that no callback was called can be expected.
printf 'load ctx\ncreate 0 new a\nwrite 0 0 61\nexpect status 0\n' > "$room/green.txt"
says 1 'green.txt: no callback of ctx was called: attach it, and ask for what it registered' "$room/green.txt"
tell $? "requests that no driver hears of"
printf 'load ctx\ncreate 0 new a\nexpect callbacks none\n' > "$room/green.txt"
"$room/drivers" "$room/green.txt" > "$room/green.out" 2> "$room/green.err" && [ ! -s "$room/green.err" ]
tell $? "callbacks that are to be none"
printf 'mount u fs=FAT\nload quota\nattach quota u q 200\nexpect status 11\ncreate u new a\nexpect status 0\n' > "$room/green.txt"
says 1 'green.txt: no callback of quota was called but those of its instances: ' "$room/green.txt"
tell $? "an instance that its driver refused"
printf 'load ctx\nexpect status 0 info 0\n' > "$room/green.txt"
says 2 'green.txt:2: not understood: expect status has one word behind it, and each expectation a line of its own' "$room/green.txt"
tell $? "two expectations in a line"
printf 'load ctx\nattach 0\0 0 c 100\n' > "$room/green.txt"
says 2 'green.txt:2: it has a zero byte: requests are text of UTF-8 or ASCII' "$room/green.txt"
tell $? "a zero byte in requests"
printf '\377\376l\0o\0a\0d\0' > "$room/green.txt"
says 2 'green.txt:1: it is UTF-16: requests are text of UTF-8 or ASCII' "$room/green.txt"
tell $? "requests in UTF-16"
printf 'load ctx\r\nattach 0 0 c 100\r\ncreate 0 new a as h\r\nexpect status 0\r\nclose h\r\n' > "$room/green.txt"
"$room/drivers" "$room/green.txt" > "$room/green.out" 2> "$room/green.err" && [ ! -s "$room/green.err" ]
tell $? "lines that end as those of DOS"
printf '\357\273\277load ctx\nattach 0 0 c 100\ncreate 0 new a as h\nexpect status 0\nclose h\n' > "$room/green.txt"
"$room/drivers" "$room/green.txt" > "$room/green.out" 2> "$room/green.err" && [ ! -s "$room/green.err" ]
tell $? "requests behind the mark of UTF-8"
printf '# no request\n\n' > "$room/green.txt"
says 1 'there is no request in it' "$room/green.txt"
tell $? "a file with no request"
says 3 'is a folder' "$room"
tell $? "a folder as a file of requests"
# Nor is a load.
loads() {
    timeout 20 "$room/drivers" --load "$room/green.txt" --threads 1 --seconds 1 > "$room/green.out" 2> "$room/green.err"
    [ $? = "$1" ] && grep -q "$2" "$room/green.err"
}
printf 'load ctx\nattach 0 0 c 100\nclient r: lst 0\n' > "$room/green.txt"
loads 2 "green.txt:3: not understood: there is no request lst; the nearest is list"
tell $? "a client that asks for what isn't there"
printf 'load none\nclient r: list 0\n' > "$room/green.txt"
loads 1 "the set-up has a line that is refused: load none"
tell $? "a set-up that is refused"

"$room/drivers" --json $tests/requests/names.txt > "$room/names.json" && grep -q '"command": "query a name", "event": "Answered", "status": 0, "information": 8, "length": 8, "says": "name /b"' "$room/names.json"
tell $? "what a reply says, in JSON"
printf 'create 0 new a as a\nquery a name\nexpect says name /b\nexpect status STATUS_ACCESS_DENIED\n' > "$room/says.txt"
"$room/drivers" --junit "$room/says.xml" "$room/says.txt" > "$room/says.out"
[ $? = 1 ] && grep -q '^unmet: says name /a$' "$room/says.out" && grep -q '^unmet: status 0x00000000$' "$room/says.out" && grep -q 'failure message="expected says name /b, and there is says name /a"' "$room/says.xml"
tell $? "what a reply says, where it isn't met"
# What is found, for a compiler's readers, a job of GitHub's and SARIF: an expectation that isn't met, a report with its line and its request, and a crash in a second file.
{ cat $tests/requests/first.txt; echo 'expect info 9'; } > "$room/found it.txt"
for format in gcc github sarif; do
    "$room/drivers" --format $format "$room/found it.txt" "$room/crash.txt" > "$room/found.$format" 2> /dev/null
done
printf '%s\n' 'found it.txt:9:1: error: expected info 9, and there is info 2 [expect]' 'first.c:12:1: error: FltReleaseFileNameInformation: never called for a name: [KZ0151]' \
    'found it.txt:4:1: note: the request' 'crash.c:13:1: error: SIGSEGV: [CRASH]' | diff - <(sed -E 's,^.*/([^/:]+:[0-9]+:1),\1,; s,: filter .* (\[.*),: \1,' "$room/found.gcc")
tell $? "what is found, as a compiler says it"
grep -q '^::error file=.*/first\.c,line=12,title=KZ0151::FltRelease' "$room/found.github" && grep -q 'found it\.txt,line=9,title=expect::expected info 9, and there is info 2$' "$room/found.github"
tell $? "what is found, for a job"
"$room/drivers" --quiet --junit "$room/found.xml" $tests/requests/first.txt > /dev/null
if command -v python3 > /dev/null; then
    "$room/drivers" --json $tests/requests/leaks.txt > "$room/leaks.json"
    python3 .ci/objects.py --objects "$room/expects.json" --objects "$room/leaks.json"
    tell $? "JSON beside docs/JSON.md"
    python3 $tests/scripts/reports.py "$room"
    tell $? "JSON and JUnit, as they are read,"
fi

# A log of Process Monitor: each row that can be said becomes a request, and the results are met. Of its 50 rows one is paging I/O, two are closes that another row makes, one is of a share and one of the network;
# one write is said in two parts.
if command -v python3 > /dev/null; then
    ./flt import --driver nullfilter $tests/logs/desk.csv > "$room/desk.txt" && "$room/drivers" --quiet "$room/desk.txt" && grep -q '^# 50 rows: 46 requests with 46 expectations; ' "$room/desk.txt"
    tell $? "a log that is played again"
    # 500 files of four rows each: none is lost.
    python3 -c "
print('\"Time of Day\",\"Process Name\",\"PID\",\"TID\",\"Operation\",\"Path\",\"Result\",\"Detail\"')
for file in range(500):
    made = 'Desired Access: Generic Read/Write, Disposition: Create, Options: Non-Directory File, Attributes: N, ShareMode: None, AllocationSize: 0, OpenResult: Created'
    for what, detail in (('CreateFile', made), ('WriteFile', 'Offset: 0, Length: 8'), ('ReadFile', 'Offset: 4, Length: 4'), ('CloseFile', '')):
        print(f'\"1:00:00.0000000 AM\",\"a.exe\",\"{8 + 4 * (file % 3)}\",\"{20 + 4 * (file % 5)}\",\"{what}\",\"C:\\\\d\\\\f{file}\",\"SUCCESS\",\"{detail}\"')
" > "$room/long.csv"
    ./flt import --driver nullfilter "$room/long.csv" > "$room/long.txt" && "$room/drivers" --quiet "$room/long.txt" && [ "$(tail -n 1 "$room/long.txt")" = '# 2000 rows: 2000 requests with 2000 expectations' ]
    tell $? "a log of 2,000 rows"
    ./flt import --clients --driver ctx "$room/long.csv" > "$room/clients.txt" && [ "$(grep -c '^client ' "$room/clients.txt")" = 15 ]
    tell $? "a log as a scenario"
fi

# A folder of the host machine as volume 0: regular files below it alone, and what is written stands in them.
mkdir -p "$room/folder/base/sub"
printf abcd > "$room/folder/base/old"
printf secret > "$room/folder/outside"
ln -s ../outside "$room/folder/base/out"
ln -s old "$room/folder/base/in"
mkfifo "$room/folder/base/pipe"
timeout 60 "$room/drivers" --folder "$room/folder/base" $tests/scripts/folder.txt > "$room/folder.out" && ! grep -q unmet "$room/folder.out" &&
    [ "$(cat "$room/folder/base/old" "$room/folder/base/sub/new" "$room/folder/outside")" = "abxyasecret" ] && [ ! -e "$room/folder/base/gone" ]
tell $? "a folder"
# Names in it: what was renamed, linked, made and deleted stands so.
mkdir -p "$room/named/base/sub"
printf one > "$room/named/base/a"
printf two > "$room/named/base/b"
timeout 60 "$room/drivers" --folder "$room/named/base" $tests/scripts/folder-names.txt > "$room/named.out" || { cat "$room/named.out"; false; }
[ $? = 0 ] && [ "$(cd "$room/named/base" && find . | LC_ALL=C sort | tr '\n' ' ')" = ". ./B ./made ./made/moved ./sub ./sub/linked " ] &&
    [ "$(cd "$room/named/base" && cat B made/moved sub/linked)" = "twoONEONE" ]
tell $? "names in a folder"
"$room/drivers" --folder "$room/none" $tests/scripts/folder.txt > "$room/folder.out" 2>&1
[ $? = 3 ] && [ "$(cat "$room/folder.out")" = "$room/none: No such file or directory" ]
tell $? "a folder that isn't there"

# An installed tree, in a folder with spaces and without the kit: a driver is built by CMake, and tested by ctest; and by the installed script, though the tree can't be written.
mkdir -p "$room/a fresh folder/include"
cp $tests/cmake/CMakeLists.txt c/samples/ctx.c c/samples/spy.c $tests/requests/ctx.txt $tests/requests/spy.txt "$room/a fresh folder/"
cp c/samples/spy.h "$room/a fresh folder/include/"
sed 's|"../spy.h"|"spy.h"|' c/samples/user/spylog.c > "$room/a fresh folder/spylog.c"
sed "s/DRIVER/ctx/" $tests/scenarios/four-clients.txt > "$room/a fresh folder/four-clients.txt"
c/install.sh "$room/an installed tree" > "$room/install.log" 2>&1 || { cat "$room/install.log"; false; }
tell $? "install"
./flt new driver "$room/a-driver" > /dev/null && c/build.sh "$room/a-driver/run" "$room/a-driver/a-driver.c" && "$room/a-driver/run" --quiet "$room/a-driver/requests.txt"
tell $? "a new driver"
# Paths of Windows: of a drive that is mounted, and of one that isn't.
mkdir -p "$room/drives/c/my driver" && cp "$room/a-driver/a-driver.c" "$room/drives/c/my driver/"
KAZDRIN_DRIVES=$room/drives c/build.sh "$room/windows" 'C:\my driver\a-driver.c' && "$room/windows" --quiet "$room/a-driver/requests.txt" &&
    [ "$(KAZDRIN_DRIVES=$room/drives ./flt run 'D:\a.sys' 2>&1)" = "D:\\a.sys is a path of Windows: under WSL it is $room/drives/d/a.sys, and there is no $room/drives/d here" ]
tell $? "paths of Windows"
# The tasks of its editor, as that runs them, and what a report's line is to it.
python3 - "$room/a-driver" << 'END'
import json, re, subprocess, sys
folder = sys.argv[1]
read = lambda name: json.load(open(f"{folder}/.vscode/{name}", encoding="utf-8"))  # noqa: E731
tasks, start = {task["label"]: task for task in read("tasks.json")["tasks"]}, read("launch.json")["configurations"][0]
for name in (start["preLaunchTask"], "requests"):
    subprocess.run(tasks[name]["command"].replace("${workspaceFolder}", folder), shell=True, check=True, stdout=subprocess.DEVNULL)
pattern = tasks["requests"]["problemMatcher"]["pattern"]
found = re.match(pattern["regexp"], "TOLD KZ0101 FltReleaseContext: never called: filter leaks, instance 0, postoperation, IRP_MJ_CREATE, at leaks.c:34 by FltReferenceContext, \\many, line 15: create 0 new many")
assert [found[pattern[it]] for it in ("code", "file", "line")] == ["KZ0101", "leaks.c", "34"], found
assert open(start["setupCommands"][0]["text"].split(" ", 1)[1], encoding="utf-8").read(), start
END
tell $? "the tasks of a new driver"
if command -v cmake > /dev/null; then
    (
        unset KAZDRIN_LIB
        cd "$room/a fresh folder" && cmake -S . -B build -DCMAKE_EXPORT_COMPILE_COMMANDS=ON -DCMAKE_PREFIX_PATH="$room/an installed tree" && cmake --build build && cd build && ctest --output-on-failure
    ) > "$room/cmake.log" 2>&1 || { cat "$room/cmake.log"; false; }
    tell $? "CMake"
    # A header that changes has the program built again: here it can't be.
    echo '#error changed' >> "$room/a fresh folder/include/spy.h"
    ! env -u KAZDRIN_LIB cmake --build "$room/a fresh folder/build" > "$room/cmake.log" 2>&1 && grep -q '#error changed' "$room/cmake.log"
    tell $? "a header that changes"
    ! (cd "$room/a fresh folder/build" && ctest) > "$room/cmake.log" 2>&1
    tell $? "no test is passed by an old program"
    sed -i '$d' "$room/a fresh folder/include/spy.h"
    env -u KAZDRIN_LIB cmake --build "$room/a fresh folder/build" > "$room/cmake.log" 2>&1 && grep -q testcase "$room/a fresh folder/build/spy-run.spy.xml"
    tell $? "a report for each file of requests"
    # By what it says of the sources an editor's server finds no error in them.
    if command -v clangd > /dev/null; then
        (cd "$room/a fresh folder" && clangd --check=spy.c --compile-commands-dir=build && clangd --check=spylog.c --compile-commands-dir=build) > "$room/clangd.log" 2>&1 ||
            { grep -E '^E' "$room/clangd.log"; false; }
        tell $? "an editor's server"
    fi
fi
(
    unset KAZDRIN_LIB
    cd "$room/a fresh folder" && "$room/an installed tree/bin/kazdrin-build" "./my program" ctx.c && "./my program" ctx.txt | diff "$OLDPWD/$tests/expected/ctx.out" -
)
tell $? "an installed tree"

# Random requests find a call that may be refused; what is left of the session ends as it did.
build fuzzer --fuzz "$room/fuzzer" $tests/misuse/schedules/refusal.c
"$room/fuzzer" 50 2 "$room/failure.txt" > "$room/fuzzer.out"
[ $? = 139 ] && [ "$(wc -l < "$room/failure.txt")" -le 6 ]
tell $? "random requests"
"$room/fuzzer" 0 2 > /dev/null 2>&1
[ $? = 2 ] && { "$room/fuzzer" some > /dev/null 2>&1; [ $? = 2 ]; }
tell $? "no session"
printf '#include <fltKernel.h>\nNTSTATUS DriverEntry(PDRIVER_OBJECT DriverObject, PUNICODE_STRING RegistryPath)\n{\n    return STATUS_UNSUCCESSFUL;\n}\n' > "$room/absent.c"
build absent --fuzz "$room/absent" "$room/absent.c"
"$room/absent" 3 > /dev/null 2> "$room/absent.out"
[ $? = 1 ] && grep -q '^no callback of a driver was called in 3 sessions' "$room/absent.out"
tell $? "random requests to a driver that isn't loaded"
build refused "$room/refused" $tests/misuse/schedules/refusal.c
{ "$room/refused" "$room/failure.txt" > "$room/refused.out"; } 2> /dev/null
[ $? = 139 ]
tell $? "random requests, played again,"

# Names of files that are none of C, and a driver of files that are named one by one; words that aren't available are refused with a sentence.
mkdir "$room/odd folder"
cp c/samples/ctx.c "$room/odd folder/2my.odd name.c"
build names "$room/names" "$room/odd folder/2my.odd name.c" --driver $tests/drivers/two-files/main.c $tests/drivers/two-files/count.c
printf 'load main\nattach 0 0 m 100\ncreate 0 new a\nflush 0\nunload 0\n' | "$room/names" > "$room/names.out" && tail -n 1 "$room/names.out" | grep -q "told 0, limits 0"
tell $? "names"
CFLAGS=-flto c/build.sh "$room/lto" c/samples/ctx.c 2> "$room/lto.err"
[ $? = 2 ] && grep -q "isn't available" "$room/lto.err"
tell $? "a link-time optimizer"
printf '#include <stdlib.h>\n' | cat - c/samples/nullfilter.c | sed 's/    status = FltRegisterFilter/    exit(RegistryPath == NULL);\n&/' > "$room/foreign.c"
c/build.sh "$room/foreign" "$room/foreign.c" > /dev/null 2> "$room/foreign.err"
[ $? = 1 ] && grep -q "foreign calls what the kit's libraries don't have: exit" "$room/foreign.err"
tell $? "calls that no kernel has"
c/build.sh "$room/empty" "$room/a fresh folder/build/none" 2> /dev/null
[ $? != 0 ] && [ ! -e "$room/empty" ]
tell $? "a driver that isn't there"

# A tool or a file that isn't there is named in one sentence.
missing() {
    "${@:2}" > /dev/null 2> "$room/missing.err"
    [ $? = 2 ] && [ "$(wc -l < "$room/missing.err")" = 1 ] && grep -q ": there is no $1" "$room/missing.err" || { cat "$room/missing.err"; false; }
    tell $? "no $1"
}
mkdir "$room/few"
for tool in ar awk basename bash cat cc dirname env find grep head id ld mkdir mktemp nm nproc objcopy readlink rm sed sh sha256sum touch tr uname xargs; do
    ln -s "$(command -v $tool)" "$room/few/"
done
missing no-cc env CC=no-cc c/build.sh "$room/none" c/samples/ctx.c
missing make env -u CC PATH="$room/few" c/build.sh "$room/none" c/samples/ctx.c
missing nosuch.c c/build.sh "$room/none" nosuch.c
# What is there already, and is no program, stays as it is.
cp c/samples/ctx.c "$room/own.c"
mkdir "$room/own"
# refused TEXT COMMAND: it ends with 2, and says that in one line.
refused() {
    "${@:2}" > /dev/null 2> "$room/refused.err"
    [ $? = 2 ] && [ "$(wc -l < "$room/refused.err")" = 1 ] && grep -qF "$1" "$room/refused.err" || { cat "$room/refused.err"; false; }
    tell $? "$1"
}
for own in own.c own a.sys; do
    refused "$room/$own isn't written, since it is no program" c/build.sh "$room/$own" c/samples/nullfilter.c
done
cmp c/samples/ctx.c "$room/own.c"
tell $? "a source in the program's place, as it was"
refused 'there is no word --sanitise; the nearest is --sanitize; there are:' c/build.sh --sanitise=address "$room/none" c/samples/ctx.c
# A compiler by another name has the same libraries.
[ "$(c/libraries.sh host)" = "$(CC=$(command -v "${CC:-cc}") c/libraries.sh host)" ]
tell $? "a compiler by its path"
missing "folder $room/nofolder" c/build.sh "$room/nofolder/none" c/samples/ctx.c
# Without a compiler the tests of an installation aren't passed.
if command -v rt > /dev/null; then
    CC=no-cc ./flt test > "$room/missing.out" 2>&1
    [ $? = 1 ] && grep -q '^drivers in C: not tried' "$room/missing.out" && grep -qx 'failed: drivers' "$room/missing.out"
    tell $? "the tests without a compiler"
fi

# Random requests through all samples. Those whose own threads and requests wait for what other drivers hold play apart from those that never do.
never=()
for driver in c/samples/*.c; do
    grep -q 'FltReadFile\|PsCreateSystemThread\|FltSendMessage' "$driver" || never+=("$(basename "$driver" .c)")
done
build "all samples" --main $tests/programs/samples.c "$room/samples" c/samples/*.c
! has_sanitizers address,undefined || build "all samples for the address sanitizer" --sanitize=address,undefined --main $tests/programs/samples.c "$room/address" c/samples/*.c
random() {
    "$built/$1" "$2" "$3" "${@:4}" > "$room/out" 2>&1 && grep -qx "$2 requests: many contexts, all cleaned up, nothing told" "$room/out" || { cat "$room/out"; false; }
    tell $? "$2 random requests by $1"
}
long() {
    case $1 in
    requests) # it tells of what a try block takes too, and of what is read past its end by one byte
        mapfile -t all < <(find $tests/requests -name '*.txt' ! -name guards.txt ! -name swallows.txt ! -name past.txt | LC_ALL=C sort)
        look "all requests" "$built/drivers" "${all[@]}"
        ;;
    valgrind) look "random requests" "$built/samples" 1000 2 "${never[@]}" ;;
    never) random samples $((many * 5)) 1 "${never[@]}" ;;
    waits) random samples $((many * 2)) 1 waits ;;
    address) [ ! -x "$built/address" ] || random address "$many" 3 waits ;;
    esac
}
rows long requests valgrind never waits address
finish
