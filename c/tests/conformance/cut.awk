# Leaves functions of a test out, whose names stand in `cut` with blanks around them, and gives each test of its list a way out: SUITE(..).
BEGIN {
    in_list = 0
    print "#include \"suite.h\"\n#line 1"
}
/^START_TEST/ { in_list = 1 }
is_cut {
    if (/^\{/) is_body = 1
    if (/^\}/ && is_body) { is_cut = is_body = 0 }
    print ""
    next
}
/^(static )?[A-Za-z]/ && !/;[ \t]*$/ && match($0, /[A-Za-z_0-9]+\(/) {
    name = substr($0, RSTART, RLENGTH - 1)
    if (index(cut, " " name " ")) {
        line = $0
        sub(/[ \t]*\{?[ \t]*$/, "", line)
        if (line ~ /\)$/) {
            if (line ~ /\(void\)$/) printf "%s { suite_left_out(\"%s\"); }\n", line, name
            else print ""
            is_cut = 1
            is_body = /\{[ \t]*$/
            next
        }
    }
}
in_list && match($0, /^[ \t]*[a-z_0-9]*test[A-Za-z_0-9]*\(.*\);[ \t]*$/) {
    line = $0
    sub(/^[ \t]*/, "", line)
    sub(/;[ \t]*$/, "", line)
    name = line
    sub(/\(.*/, "", name)
    printf "SUITE(\"%s\", %s);\n", name, line
    next
}
/^\}/ { in_list = 0 }
{ print }
