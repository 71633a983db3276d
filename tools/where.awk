# What `tools/where` does with a text, in awk. `task` is one of:
#
#   show    file, line and column of each byte in `place`, counted from 0, with the line and a mark below the column; through cpp's line markers.
#           Environment: WHERE_NAME (the file's name where no marker gives one), WHERE_STYLE (Error, or another word, for a compiler's style),
#           WHERE_WORDS
#   first   the place of the first line that is no line marker and isn't empty
#   lacks   the place of the end of the statement before the byte `place`, where that begins a line and the statement doesn't end in `;`
#   cuts    a line `KIND START END DEPTH NAME` for each place at which a front of the text may be cut, or a property left out: o, a body opens;
#           s, a statement ends; r, a property whose value refers to nodes; h, a property phandle; m, a memory reservation; l, a label
#   same    the places at which WHERE_REFERENCE stands in the ranges `START END` of the file `ranges`

# ---- a place

function show(column, text,    head, mark) {
    mark = substr(text, 1, column - 1)
    gsub(/[^\t]/, " ", mark)
    if (style != "") { print style ": " file ":" number "." column ": " words; print text; print mark "^" }
    else if (words != "") { print file ":" number ":" column ": " words; print text; print mark "^" }
    else {
        head = file ":" number ":" column ": "
        print head text
        gsub(/./, " ", head)
        print head mark "^"
    }
    shown = 1
}

function follow(line) {
    match(line, /[0-9]+/); number = substr(line, RSTART, RLENGTH) + 0
    sub(/^[^"]*"/, "", line); sub(/"[^"]*$/, "", line)
    if (line != "") file = unescaped(line)
}

task == "show" {
    start = behind
    behind = start + length($0) + 1
    while (at < places && wanted[at + 1] < behind) show(wanted[++at] - start + 1, $0)
    if (is_marker($0)) follow($0); else number++
    next
}

task == "first" {
    if (!is_marker($0) && $0 !~ /^[ \t\r]*$/) { print behind + 0; exit }
    behind += length($0) + 1
    next
}

# The last byte of the statement before a place, comments, blanks and line markers aside.
task == "lacks" {
    start = behind; behind = start + length($0) + 1
    upto = place < behind ? substr($0, 1, place - start) : $0
    if (start > place) exit
    if (comment || text || !is_marker($0)) {
        rest = upto; at = start; line_has = 0
        while (rest != "") {
            if (comment) { n = index(rest, "*/"); if (n) { comment = 0; n++ } else n = length(rest) }
            else if (text) {
                if (!match(rest, /^([^"\\]|\\.)*"/)) n = length(rest)
                else { n = RLENGTH; text = 0; last_byte = "\""; last_at = at + n - 1; line_has = 1 }
            }
            else if (substr(rest, 1, 2) == "/*") { comment = 1; n = 2 }
            else if (substr(rest, 1, 2) == "//") n = length(rest)
            else if (match(rest, /^[ \t\r\f\v]+/)) n = RLENGTH
            else { n = 1; last_byte = substr(rest, 1, 1); last_at = at; line_has = 1; if (last_byte == "\"") text = 1 }
            at += n; rest = substr(rest, n + 1)
        }
    }
    if (place < behind) {
        if (!line_has && !text && !comment && last_byte ~ /[]A-Za-z0-9">)}'_.-]/) print last_at
        exit
    }
    next
}

# ---- a reference

# Where the reference stands in a part of a line that begins at a place, outside texts.
function tell_same(part, from,    n, behind_it) {
    while (match(part, /"([^"\\]|\\.)*"/)) part = substr(part, 1, RSTART - 1) sprintf("%" RLENGTH "s", "") substr(part, RSTART + RLENGTH)
    while ((n = index(part, reference)) > 0) {
        behind_it = substr(part, n + length(reference), 1)
        if (reference ~ /\}$/ || behind_it !~ /[A-Za-z0-9_]/) print from + n - 1
        part = substr(part, n + length(reference)); from += n + length(reference) - 1
    }
}

task == "same" {
    at = behind; behind += length($0) + 1
    while (range <= count && ends[range] <= at) range++
    for (i = range; i <= count && starts[i] < behind; i++) {
        first = starts[i] > at ? starts[i] : at
        tell_same(substr($0, first - at + 1, ends[i] - first), first)
    }
    next
}

# ---- cuts

function cut(kind, from, to) { print kind, from, to, depth, (last == "" ? "-" : last) }

function statement_ends(to) {
    if (word == "/memreserve/") cut("m", begin, to)
    cut("s", begin, to)
    if (value && refers) cut("r", begin, to)
    if (last == "phandle") cut("h", begin, to)
    value = refers = 0; last = word = ""; begin = -1
}

function token(    t) {
    if (begin < 0) begin = at
    if (match(rest, /^\/[a-z0-9-]+\//)) { if (!value) word = substr(rest, 1, RLENGTH); return RLENGTH }
    if (match(rest, /^&(\{[^}]*\}|[A-Za-z_][A-Za-z0-9_]*)/)) { if (value) refers = 1; else last = substr(rest, 1, RLENGTH); return RLENGTH }
    if (match(rest, /^'([^'\\]|\\.)+'/)) return RLENGTH
    if (match(rest, /^[A-Za-z0-9_,.+*#?@-]+/)) {
        if (!value && substr(rest, RLENGTH + 1, 1) != ":") last = substr(rest, 1, RLENGTH)
        else if (!value) print "l", at, at + RLENGTH, depth, substr(rest, 1, RLENGTH)
        return RLENGTH
    }
    t = substr(rest, 1, 1)
    if (t == "=" && !value) value = 1
    else if (t == ";") statement_ends(at + 1)
    else if (t == "{" && !value) { depth++; cut("o", begin, at + 1); begin = -1; last = word = "" }
    else if (t == "}" && !value) { depth--; last = "" }
    else if (t == "/" && !value) last = "/"
    return 1
}

task == "cuts" {
    rest = $0; at = behind; behind += length($0) + 1
    if (!comment && !text && is_marker(rest)) next
    while (rest != "") {
        if (comment) { n = index(rest, "*/"); if (n) { comment = 0; n++ } else n = length(rest) }
        else if (text) { if (match(rest, /^([^"\\]|\\.)*"/)) { n = RLENGTH; text = 0 } else n = length(rest) }
        else if (substr(rest, 1, 2) == "/*") { comment = 1; n = 2 }
        else if (substr(rest, 1, 2) == "//") n = length(rest)
        else if (match(rest, /^[ \t\r\f\v]+/)) n = RLENGTH
        else if (substr(rest, 1, 1) == "\"") { if (begin < 0) begin = at; text = 1; n = 1 }
        else n = token()
        at += n; rest = substr(rest, n + 1)
    }
    next
}

BEGIN {
    style = ENVIRON["WHERE_STYLE"]; words = ENVIRON["WHERE_WORDS"]; reference = ENVIRON["WHERE_REFERENCE"]
    if (task == "show") { file = ENVIRON["WHERE_NAME"]; number = 1; places = split(place, wanted, " "); at = 0 }
    if (task == "same") { range = 1; while ((getline line < ranges) > 0) { split(line, pair, " "); starts[++count] = pair[1] + 0; ends[count] = pair[2] + 0 } }
    begin = -1; behind = 0; depth = 0; value = refers = comment = text = 0; last = word = ""
}

END {
    if (task == "show") {
        while (at < places && wanted[at + 1] == behind) { at++; show(1, "") }
        if (!shown) { print "where: " ENVIRON["WHERE_NAME"] " has " behind " bytes" > "/dev/stderr"; exit 1 }
    }
}
