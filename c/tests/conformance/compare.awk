# compare.awk -v suite=NAME EXCEPTIONS OUTPUT: each check that isn't met, and each routine that is missing, has a line in the exceptions; each exception of the suite is needed.
function is_excepted(kind, name, number) {
    for (at = 1; at <= count; at++)
        if (kinds[at] == kind && names[at] == name && number >= first[at] && number <= last[at]) {
            used[at] = 1
            return 1
        }
    return 0
}
FNR == NR {
    if (!/^(wrong|missing|told) / || $2 != suite) next
    kinds[++count] = $1
    names[count] = $3
    split($4, lines, "-")
    first[count] = $1 == "wrong" ? lines[1] : 0
    last[count] = $1 == "wrong" ? (lines[2] == "" ? lines[1] : lines[2]) : 0
    said[count] = $0
    next
}
/^wrong / && !is_excepted("wrong", $2, $3) { print; unmet++ }
/^wrong / { failed++ }
/^missing / && !is_excepted("missing", $2, 0) { print; unmet++ }
/^CRASH/ { print; unmet++ }
/^TOLD/ && !is_excepted("told", $2, 0) { print; unmet++ }
/^met / { met = $2 + 0; is_whole = 1 }
END {
    for (at = 1; at <= count; at++)
        if (!used[at]) {
            print "not needed: " said[at]
            unmet++
        }
    if (!is_whole) {
        print suite " didn't end"
        unmet++
    }
    printf "conformance: %s: %d checks met, %d excepted\n", suite, met, failed
    exit unmet > 0
}
