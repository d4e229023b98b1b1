# shellcheck shell=bash
# For the scripts beside it, which begin in the checkout's folder: what passed, what failed, and a room that is gone at the end. PART is the name in front of what they say.
PART=$1
cd "$(dirname "${BASH_SOURCE[0]}")/../../.." || exit
tests=c/tests
room=$(mktemp -d)
trap 'rm -rf "$room"' EXIT
passed=0
failed=0

# tell STATUS NAME: what came of the test of that name.
tell() {
    if [ "$1" = 0 ]; then
        passed=$((passed + 1))
    else
        failed=$((failed + 1))
        echo "$PART: $2 failed"
    fi
}

# try NAME PROGRAM WORD..: what it prints, and its exit status, are compared with what is stored under the name.
try() {
    local name=$1
    shift
    "$@" > "$room/$name.out" 2> "$room/$name.err"
    [ $? = "$(cat "$tests/expected/$name.status" 2> /dev/null || echo 0)" ] && diff "$tests/expected/$name.out" "$room/$name.out"
    tell $? "$name"
}

# look NAME PROGRAM WORD..: under valgrind, where that is there; not in the quick tests of `flt test` (KAZDRIN_QUICK).
look() {
    [ -z "${KAZDRIN_QUICK:-}" ] && command -v valgrind > /dev/null || return 0
    local name=$1
    shift
    valgrind -q --error-exitcode=99 --leak-check=full "$@" > /dev/null 2> "$room/$name.valgrind"
    [ $? != 99 ] || { cat "$room/$name.valgrind"; false; }
    tell $? "$name under valgrind"
}

# build PROGRAM WORD..: c/build.sh, whose failure is one of the tests.
build() {
    local program=$1
    shift
    c/build.sh "$@"
    tell $? "$program, as it was built,"
}

# rows CALL WORD..: that function for each word, as many at once as there are processors (KAZDRIN_JOBS). Each has a room of its own beside the common one, which is $built. What they say comes in
# the words' order.
rows() {
    local call=$1 at=0 more less word
    shift
    for word in "$@"; do
        while [ "$(jobs -rp | wc -l)" -ge "${KAZDRIN_JOBS:-$(nproc)}" ]; do wait -n; done
        at=$((at + 1))
        row "$room/row.$at" "$call" "$word" > "$room/row.$at.said" 2>&1 &
    done
    wait
    for ((at = 1; at <= $#; at++)); do
        cat "$room/row.$at.said"
        read -r more less < "$room/row.$at.count" || { more=0; less=1; echo "$PART: $call ${*:at:1} broke off"; }
        passed=$((passed + more))
        failed=$((failed + less))
    done
}
row() {
    # shellcheck disable=SC2034 # what is called reads it
    local built=$room room=$1 passed=0 failed=0
    mkdir "$room"
    "$2" "$3"
    echo "$passed $failed" > "$room.count"
    rm -rf "$room"
}

# Whether the compiler has those sanitizers.
has_sanitizers() {
    echo 'int main(void) { return 0; }' | ${CC:-cc} "-fsanitize=$1" -x c -o "$room/sanitized" - 2> /dev/null
}

# untried WHY: this part can't be tried here. By hand that is no failure. Where all has to be tried (KAZDRIN_WHOLE, which .ci/run sets) it is one, unless KAZDRIN_WITHOUT names the part.
untried() {
    echo "$PART: not tried, since $1"
    [ -z "${KAZDRIN_WHOLE:-}" ] && return
    case " ${KAZDRIN_WITHOUT:-} " in
        *" $PART "*) ;;
        *)
            echo "$PART: 0 passed, 1 failed (--without $PART allows that)"
            return 1
            ;;
    esac
}

# kinds REPORT: what a search of the explorer found, each kind in a line, without the numbers and names in which two schedules differ.
kinds() {
    awk '/ schedules:$/ { text = ""; inside = 1; next } /^  the shortest:/ { print text; inside = 0; next } inside { text = text "|" $0 }' "$1" |
        sed -E 's/operation [0-9]*/operation N/g; s/\([a-z]*\)/()/g; s/(, (at|in) [^,|]*)[^|]*/\1/g' | sort
}

# The last line.
finish() {
    echo "$PART: $passed passed, $failed failed"
    [ "$failed" = 0 ]
}

# The server that the mount's tests run above: FLTD, the proved one, or one without proofs.
server_of_mount() {
    local program=${FLTD:-$PWD/crates/fltd/out/fltd}
    [ -x "$program" ] || program=$(tools/unproved fltd) || exit 1
    echo "$program"
}

# Whether a folder can be mounted here; else why not. Root mounts by itself, for which it needs CAP_SYS_ADMIN; others do by fusermount3.
may_mount() {
    [ -c /dev/fuse ] || { echo 'there is no /dev/fuse here'; return 1; }
    (exec 3<> /dev/fuse) 2> /dev/null || { echo '/dev/fuse may not be opened here'; return 1; }
    if [ "$(id -u)" = 0 ] && [ $((0x$(sed -n 's/^CapEff:[[:space:]]*//p' /proc/self/status) >> 21 & 1)) = 0 ]; then
        echo 'nothing may be mounted here'
        return 1
    fi
    make -s -C c fuse > /dev/null 2>&1 || { echo "there is no libfuse3 $(make -s -C c fuse 2> /dev/null) or later here"; return 1; }
    command -v fusermount3 > /dev/null || { echo 'there is no fusermount3 here'; return 1; }
    command -v python3 > /dev/null || { echo 'there is no python3 here'; return 1; }
}

# finds_of SCENARIO: what it is to find, as a pattern. Which side of a race comes first is the schedule's.
finds_of() {
    sed -n 's/^# finds: //p' "$1" | sed 's/^RACE: \(.*\), and \(.*\)$/RACE: \\(\1, and \2\\|\2, and \1\\)/'
}
