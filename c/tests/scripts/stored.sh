# shellcheck shell=bash
# shellcheck disable=SC2154 # what isn't set here stands in tally.sh, and in those two
# For image.sh and binaries.sh: a driver's binary is held to what is stored of its source. c/tests/image/differs.txt says where it isn't as that.

# is_left_out NAME: no binary of it is made by this kind.
is_left_out() {
    grep -qE "^$1 +($kind|both) +none " "$tests/image/differs.txt"
}

# differences NAME out|requests: expressions of sed.
differences() {
    awk -v name="$1" -v what="$2" -v kind="$kind" '$1 == name && ($2 == kind || $2 == "both") && $3 == what { sub(/^[^ ]+ +[^ ]+ +[^ ]+ +/, ""); sub(/ +# .*/, ""); print }' "$tests/image/differs.txt"
}

# played NAME: the requests of that name, by RUN, through all binaries of the kind. Where nothing is stored, its own expectations are all.
played() {
    local name=$1 requests=$tests/requests/$1.txt stored=$tests/expected/$1.out changed
    changed=$(differences "$name" requests)
    if [ -n "$changed" ]; then
        requests=$room/$name.txt
        sed "$changed" "$tests/requests/$name.txt" > "$requests"
    fi
    "$RUN" "$built/$kind"/*.sys "$requests" > "$room/$name.out" 2> "$room/$name.err"
    [ $? = "$(cat "$tests/expected/$name.status" 2> /dev/null || echo 0)" ] && if [ -f "$stored" ]; then sed "$(differences "$name" out)" "$stored" | diff - "$room/$name.out"; fi || { head -n 5 "$room/$name.err"; false; }
    tell $? "$name by $kind"
}
