# Behind each line of a script that is answered, or behind one of EVERY, what a script can be asked of its first instances and contexts.
{ print }
$0 != "" && !/^#/ && NR % (EVERY ? EVERY : 1) == 0 { for (at = 0; at < 4; at++) print "flight i" at; for (at = 0; at < 8; at++) print "count c" at }
