# The first of two: reads the cuts of a text, as where.awk writes them, and prints the place at which the property (kind 20), the child (21) or the
# label (22) of the statement from `place` to `end` stands before; of a label its place there and its name, too.

$1 == "l" {
    if ($2 >= place && $2 < end) { if (kind == 22 && $5 in label) { print label[$5], $2, $5; exit } }
    else if ($2 < place) label[$5] = $2
    next
}
$1 == "o" || $1 == "s" && $5 != "-" {
    level = $1 == "o" ? $4 - 1 : $4
    key = body[level] SUBSEP $1 SUBSEP $5
    if ($2 == place && $3 == end) { if (key in first && kind != 22) print first[key]; if (kind != 22) exit }
    if (!(key in first)) first[key] = $2
    if ($1 == "o") body[$4] = ++bodies
}
