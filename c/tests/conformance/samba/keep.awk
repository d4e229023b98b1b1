# keep.awk -v cut=" NAME .. " TEST.c : a test of Samba's without its headers and those functions, each line where it stood.
function is_cut_name(line) {
    return match(line, /[A-Za-z_0-9]+\(/) && index(cut, " " substr(line, RSTART, RLENGTH - 1) " ")
}
/^#include/ { print ""; next }
!in_cut && /^[A-Za-z]/ && is_cut_name($0) {
    in_cut = 1
    has_body = depth = 0
}
in_cut {
    opened = gsub(/\{/, "{")
    has_body = has_body || opened
    depth += opened - gsub(/\}/, "}")
    if (has_body ? !depth : /;[ \t]*$/) in_cut = 0
    print ""
    next
}
{
    gsub(/NT_STATUS_/, "STATUS_")
    gsub(/STATUS_(OK|IS_OK|EQUAL)[^A-Z_]/, "NT_&")
    print
}
