# A report as JUnit has it, of what TAP tells on standard input.
function escaped(text) {
    gsub(/&/, "\\&amp;", text); gsub(/</, "\\&lt;", text); gsub(/>/, "\\&gt;", text); gsub(/"/, "\\&quot;", text)
    return text
}
function close_case() {
    if (name == "") return
    attributes = "<testcase name=\"" escaped(name) "\""
    if (is_bad) cases = cases "  " attributes "><failure message=\"" escaped(message) "\">\n" said "  </failure></testcase>\n"
    else if (is_skipped) cases = cases "  " attributes "><skipped/></testcase>\n"
    else cases = cases "  " attributes "/>\n"
    name = ""
}
/^(not )?ok [0-9]+ - / {
    close_case()
    is_bad = /^not /
    is_skipped = sub(/ # SKIP .*$/, "")
    name = $0
    sub(/^(not )?ok [0-9]+ - /, "", name)
    message = said = ""
    count++
    bad += is_bad
    skipped += is_skipped
}
/^# / {
    line = substr($0, 3)
    sub(/^ +/, "", line)
    if (message == "" || line ~ /^status /) message = message (message == "" ? "" : "; ") line
    said = said escaped(line) "\n"
}
END {
    close_case()
    print "<?xml version=\"1.0\" encoding=\"UTF-8\"?>"
    printf "<testsuite name=\"kazdrin\" tests=\"%d\" failures=\"%d\" skipped=\"%d\">\n%s</testsuite>\n", count, bad, skipped, cases
}
