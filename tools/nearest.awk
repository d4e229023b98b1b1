# Says what is no word, which of the lines of standard input comes nearest to it by how many letters differ, if one is near, and all of them; `what` is what it was to be, `program` who says it.
function least(a, b) { return a < b ? a : b }
function distance(a, b, i, j, rows) {
    for (j = 0; j <= length(b); j++) rows[0, j] = j
    for (i = 1; i <= length(a); i++) {
        rows[i, 0] = i
        for (j = 1; j <= length(b); j++)
            rows[i, j] = least(least(rows[i - 1, j], rows[i, j - 1]) + 1, rows[i - 1, j - 1] + (substr(a, i, 1) != substr(b, j, 1)))
    }
    return rows[length(a), length(b)]
}
{
    away = distance(typed, $0)
    if (NR == 1 || away < far) { nearest = $0; far = away }
    all = all " " $0
}
END { print (program ? program : "flt") ": there is no " what " " typed (far <= 2 ? "; the nearest is " nearest : "") "; there are:" all }
