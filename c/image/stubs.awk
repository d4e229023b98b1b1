# Makes the stubs by which a binary calls the kit: awk -v folder=INCLUDE/ -v own="NAME .." -f stubs.awk MACROS DECLARATIONS, where MACROS are those of kit.h by `cc -dM -E`, and DECLARATIONS
# what `cc -E` makes of it. Each function of the headers in that folder gets one, inline ones too, and each macro that is another name of one. `own` are those that are written by hand.
# A stub has the convention of Windows, notes where its caller goes on, and makes the host's call.
function trimmed(text) {
    gsub(/^[ \t]+|[ \t]+$/, "", text)
    return text
}

# A text without __attribute__((..)).
function bare(text, at, depth, end) {
    while ((at = index(text, "__attribute__")) > 0) {
        end = at + length("__attribute__")
        while (substr(text, end, 1) != "(") end++
        depth = 0
        do {
            depth += (substr(text, end, 1) == "(") - (substr(text, end, 1) == ")")
            end++
        } while (depth > 0)
        text = substr(text, 1, at - 1) " " substr(text, end)
    }
    text = " " text " "
    gsub(/[ \t]+/, " ", text)
    while (gsub(/ (extern|static|inline|__inline|__extension__) /, " ", text)) continue
    return trimmed(text)
}

# Its parameters, with a name for each; their names are left in `names`. Empty if it takes any number.
function parameters(text, one, count, depth, at, letter, whole, name) {
    names = ""
    whole = ""
    count = depth = 0
    one = ""
    for (at = 1; at <= length(text) + 1; at++) {
        letter = at > length(text) ? "," : substr(text, at, 1)
        depth += (letter == "(") - (letter == ")")
        if (letter != "," || depth > 0) {
            one = one letter
            continue
        }
        one = trimmed(one)
        if (one == "..." || one ~ /va_list/) return ""
        if (one ~ /^(void|VOID)?$/) return "void"
        count++
        if (match(one, /\(\*+[A-Za-z_0-9]+\)/)) {
            name = substr(one, RSTART, RLENGTH)
            gsub(/[(*)]/, "", name)
        } else if (one ~ /\(\*\)/) {
            name = "a" count
            sub(/\(\*\)/, "(*" name ")", one)
        } else if (one ~ /\*$/ || one ~ /^[A-Za-z_0-9]+$/) {
            name = "a" count
            one = one " " name
        } else {
            name = one
            sub(/[ ]*\[[^]]*\]$/, "", name)
            match(name, /[A-Za-z_0-9]+$/)
            name = substr(name, RSTART)
        }
        whole = whole (count > 1 ? ", " : "") one
        names = names (count > 1 ? ", " : "") name
        one = ""
    }
    return whole
}

function put(name, type, text) {
    if (name in is_made) return
    is_made[name] = 1
    call = name "(" names ")"
    print "KZ_STUB(" type ", " name ", " text ")\n{\n    KZ_FROM();\n    " (type ~ /^(void|VOID)$/ ? "" : "return ") call ";\n}"
}

# A function's head: all that stands in front of its body, or of its end.
function take(text, at, name, type, rest) {
    text = bare(text)
    if (text ~ /^typedef|=/ || text !~ /^[A-Za-z_][A-Za-z_0-9 *]*\(.*\)$/) return
    at = index(text, "(")
    name = trimmed(substr(text, 1, at - 1))
    if (!match(name, /[A-Za-z_][A-Za-z_0-9]*$/) || RSTART == 1) return
    type = trimmed(substr(name, 1, RSTART - 1))
    name = substr(name, RSTART)
    rest = parameters(substr(text, at + 1, length(text) - at - 1))
    if (rest == "") return
    type_of[name] = type
    rest_of[name] = rest
    names_of[name] = names
    if (name !~ /^(_|Kz|kz|kazdrin)/ && !(name in is_own)) put(name, type, rest)
}

BEGIN {
    count = split(own, list, " ")
    for (at = 1; at <= count; at++) is_own[list[at]] = 1
}

FNR == 1 { part++ }

# Another name of a function: it isn't known yet whether it is one.
part == 1 {
    if ($1 == "#define" && NF == 3 && $2 ~ /^[A-Za-z_][A-Za-z_0-9]*$/ && $3 ~ /^[A-Za-z_][A-Za-z_0-9]*$/) alias[$2] = $3
    next
}

/^# [0-9]+ "/ {
    split($0, marker, "\"")
    is_kit = index(marker[2], folder) == 1
    next
}

{
    rest = $0
    while (match(rest, /[{};]/)) {
        letter = substr(rest, RSTART, 1)
        if (depth == 0) head = head " " substr(rest, 1, RSTART - 1)
        rest = substr(rest, RSTART + 1)
        if (letter == "}") depth--
        if (letter != "}" && depth == 0 && is_kit) take(head)
        if (letter == ";" && depth == 0) head = ""
        if (letter == "}" && depth == 0 && head ~ /\)[ ]*$/) head = ""
        if (letter == "{" && depth == 0 && head ~ /extern "C"/) head = ""
        else if (letter == "{") depth++
    }
    if (depth == 0) head = head " " rest
}

END {
    for (name in alias) {
        to = alias[name]
        for (hops = 0; hops < 4 && !(to in type_of) && (to in alias); hops++) to = alias[to]
        if (!(to in type_of) || name ~ /^(Kz|kz|__)/ || (name in is_own)) continue
        names = names_of[to]
        put(name, type_of[to], rest_of[to])
    }
    for (name in is_own) is_made[name] = 1
    for (name in is_made) print "ROW(" name ")" | ("LC_ALL=C sort > " rows)
}
