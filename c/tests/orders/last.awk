# Of what fltscript prints, behind the script that it ran: a line for each command, and of a `go` the last.
FNR == NR { if ($0 != "" && !/^#/) is_go[++lines] = /^go /; next }
begun == 0 { at++; begun = 1 }
!is_go[at] || /^(reply|no|held)/ { print; begun = 0 }
