#!/usr/bin/env bash
# decode.sh DECODE FILE.sys ..: each instruction of these drivers as our decoder has it (DECODE is decode.c), beside what llvm-objdump says: where it stands, where the next one does, and its
# operand in memory. A prefix that llvm-objdump has on a line of its own belongs to the next one. It takes tables of switches for code: behind one it is asked once more.
set -u
decode=$1
shift

# theirs FILE WORD..: what llvm-objdump says.
theirs() {
    llvm-objdump -d --no-show-raw-insn "$@" 2> /dev/null | awk -F '\t' '
        /^ *[0-9a-f]+: / {
            at = $1
            gsub(/[ :]/, "", at)
            if (is_prefix) {
                is_prefix = 0
            } else {
                if (before != "") print before, at, operand
                before = at
            }
            is_prefix = $0 ~ /^[^\t]*\t(lock|rep|repne|data16)[ \t]*$/
            operand = ""
            sub(/#.*/, "")
            sub(/%[a-z]s:/, "")
            is_string = /\t(movs|stos|lods|cmps|scas)[bwlq]\t/
            if (!is_string && match($0, /[-0-9]*\([%,][^()]*\)/)) operand = substr($0, RSTART, RLENGTH)
            else if (!is_string && match($0, /[\t ]-?[0-9]+(,|$)/)) operand = substr($0, RSTART + 1, RLENGTH - 1 - ($0 !~ /[0-9]$/))
        }
        /^Disassembly/ { before = "" }' |
        sed 's/ $//'
}
status=0
for driver in "$@"; do
    "$decode" "$driver" | LC_ALL=C sort > "$driver.ours" || { tail -n 1 "$driver.ours"; status=1; }
    theirs "$driver" | LC_ALL=C sort > "$driver.theirs"
    [ "$(wc -l < "$driver.ours")" -gt 20 ] || { echo "decode.sh: $driver has hardly any instructions"; status=1; }
    LC_ALL=C comm -23 "$driver.ours" "$driver.theirs" | head -n 40 > "$driver.wrong"
    while read -r at next operand; do
        said=$(theirs --start-address="0x$at" --stop-address="$((0x$next + 16))" "$driver" | head -n 1)
        # Of the last one of a section nothing is said there, since no other follows.
        [ -z "$said" ] || [ "$said" = "$at $next${operand:+ $operand}" ] || { echo "$driver: $at $next $operand"; status=1; }
    done < "$driver.wrong"
done
exit "$status"
