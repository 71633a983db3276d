# What `tools/dialect` does, in awk; that script says what. Variables: raw (1: as dtc without -@), strip (1: labels that nothing refers to go),
# quiet (1: no warnings). Environment: DIALECT_DIRS (folders, a line each), DIALECT_SHOWN (the file's name in line markers), DIALECT_NAMES (a file
# that gets the names of the files that were read), DIALECT_ASKED (references, of which what is known in the end is written, and no text).
#
# The text is read once, and read again where what stands later decides over what stands before: `knows` is then 1. What comes out is kept in `out`
# until the end. Nothing is moved: what is put in stands on lines of its own between line markers, and what stands behind it is put below its old
# column, so that `tools/where` finds the place in the source of each place in what comes out.

# `file` is a name as line markers write it.
function marker(line, file) { return "# " line " \"" file "\"" }

# Blanks as wide as the first n bytes of a line.
function blanks(line, n,    t) { t = substr(line, 1, n); gsub(/[^\t]/, " ", t); return t }

function stop_at(words) {
    print "Error: " spot(number, column + 1) ": " words > "/dev/stderr"
    failed = 1
    exit 1
}

# Warnings are kept: what is read once more would give them twice.
function warn(place, words) { warnings[++warned] = "Warning: " place ": " words }

function spot(line, column) { return unescaped(file) ":" line "." column }

# ---- writing: from the first token of a statement on it is held, until it is clear what stands before it

function put(text) { if (held) pending = pending text; else out[++outs] = text }

function hold() {
    if (held) return
    held = 1; pending = ""; tail = 0
    first_number = number; first_file = file; first_blanks = blanks(whole, column)
}

function let_go() { if (pending != "") out[++outs] = pending; pending = ""; held = 0 }

# What of the statement is held from its word on, as blanks; 0 where it can't be blanked. `passed` is its last byte, which isn't written yet.
function blank_tail(passed,    text) {
    text = substr(pending, tail) passed
    if (text ~ /\n#/) return 0
    gsub(/[^\t\n]/, " ", text)
    pending = substr(pending, 1, tail - 1) text
    changes++
    return 1
}

# Puts a text in, before what comes next on the line.
function put_in(text) {
    put("\n" marker(number, file) "\n" text "\n" marker(number, file) "\n" blanks(whole, column))
    changes++
}

# Closes the open bodies and opens them again, before the statement that is held.
function reopen(    text, i) {
    text = ""
    for (i = depth; i > 0; i--) text = text "}; "
    for (i = 1; i <= depth; i++) { text = text name[i] " { "; body[i] = ++bodies; has_child[i] = i < depth }
    for (i = 1; i < depth; i++) seen[body[i], "node", name[i + 1]] = 1
    out[++outs] = "\n" marker(first_number, first_file) "\n" text "\n" marker(first_number, first_file) "\n" first_blanks
    changes++
}

# ---- the tree, as far as it is known: paths of nodes, and of labels

# A property is defined. dtc merges two of one body where the body is merged into a node that is there.
function define(property) {
    if (!depth) return
    if ((body[depth], "property", property) in seen && merges[depth] && !has_child[depth]) reopen()
    seen[body[depth], "property", property] = 1
    current = property
    value_of[paths[depth], property] = ++values
    defined[paths[depth] "/" property] = 1
}

function block_path(reference,    label) {
    if (reference == "/") return ""
    if (reference ~ /^&\{/) { sub(/^&\{/, "", reference); sub(/\/*\}$/, "", reference); return reference }
    label = substr(reference, 2)
    return label in label_path ? label_path[label] : reference
}

function omit(path) { if (!(path in may_go)) { may_go[path] = 1; omitted[++omissions] = path; omitted_at[omissions] = tail_at } }

function open_body(node,    path, is_there, i) {
    if (node ~ /^&/) use_label(node)
    if (depth) {
        path = paths[depth] "/" node
        is_there = path in exists
        if ((body[depth], "node", node) in seen) { is_there = 1; if (merges[depth]) reopen() }
        seen[body[depth], "node", node] = 1
        has_child[depth] = 1
        is_there = is_there && merges[depth]
    } else {
        path = block_path(node)
        is_there = node == "/" ? roots++ > 0 : !is_overlay || substr(path, 1, 1) != "&"
    }
    depth++
    name[depth] = node; body[depth] = ++bodies; paths[depth] = path; merges[depth] = is_there; has_child[depth] = 0
    if (!(path in exists)) exists[path] = ++nodes
    if (omits && depth > 1 && !(path in opened)) omit(path)
    opened[path] = defined[path] = 1
    omits = 0
    for (i = 1; i <= labels; i++) give_label(label[i], label_at[i], path)
    labels = 0
}

function close_body() { if (depth) depth-- }

function is_in(path, above) { return path == above || index(path, above "/") == 1 }

function delete_node(node,    path, p, l, i) {
    if (node ~ /^&/) use_label(node)
    if (node ~ /^&/) path = block_path(node); else path = paths[depth] "/" node
    for (p in exists) if (is_in(p, path)) { delete exists[p]; deleted[p] = tail_place }
    for (l in label_path) if (is_in(label_path[l], path)) { deleted["&" l] = tail_place; delete label_path[l] }
    for (l in holders) take_labels(l, path)
    for (l in holders) if (!(l in label_path)) for (i = 1; i <= holders[l]; i++) if (holder[l, i] != "") label_path[l] = holder[l, i]
}

# ---- labels that more than one node has, one after the other: `holder[label, i]` is the i-th node, `places_of` its definitions of the label

function give_label(l, at, path,    i) {
    label_path[l] = path
    for (i = 1; i <= holders[l]; i++) if (holder[l, i] == path) { places_of[l, i] = places_of[l, i] " " at; return }
    i = ++holders[l]
    holder[l, i] = path; places_of[l, i] = at; is_used[l, i] = 0
}

# A block, a deletion or an omission names a node by its label: by then it has it.
function use_label(reference,    l, i) {
    l = substr(reference, 2)
    if (l ~ /^\{/) { l = substr(l, 2); sub(/[\/}].*/, "", l) }
    if (l in holders) for (i = 1; i <= holders[l]; i++) is_used[l, i] = 1
}

# The nodes below a path are deleted. Where one of them has a label that another node has too, and nothing named a node by it since this one got it,
# the label goes from the deleted one: in the end the other has it.
function take_labels(l, path,    i, j, k, n, list) {
    for (i = holders[l]; i >= 1; i--) {
        if (holder[l, i] == "" || !is_in(holder[l, i], path)) continue
        for (j = 1; j <= holders[l] && (j == i || holder[l, j] == ""); j++);
        if (j <= holders[l] && !is_used[l, i]) {
            n = split(places_of[l, i], list, " ")
            for (k = 1; k <= n; k++) moved[l, list[k]] = 1
            again = 1
        }
        holder[l, i] = ""
    }
}

# ---- references in values, and the nodes of /omit-if-no-ref/

function refer(text) {
    if (value != 1) return
    references++
    refers_to[references] = text; refers_from[references] = paths[depth]; refers_by[references] = current
    refers_node[references] = exists[paths[depth]]; refers_value[references] = values
}

# Whether the value that has the reference is there in the end.
function stays(r,    path) {
    path = refers_from[r]
    return path in exists && exists[path] == refers_node[r] && value_of[path, refers_by[r]] == refers_value[r]
}

function path_of(reference,    l, rest_of) {
    if (reference !~ /^&\{/) { l = substr(reference, 2); return l in label_path ? label_path[l] : "" }
    if (reference ~ /^&\{\//) return block_path(reference)
    l = substr(reference, 3); rest_of = l
    sub(/[\/}].*/, "", l); sub(/^[^\/}]*/, "", rest_of); sub(/\/*\}$/, "", rest_of)
    return l in label_path ? label_path[l] rest_of : ""
}

function above(path) { sub(/\/[^\/]*$/, "", path); return path }

# Whether a node goes, or one above it.
function is_going(path) { for (; path != ""; path = above(path)) if (path in going) return 1; return 0 }

# Whether a value outside of what goes refers to a node below this one; that node is then in `referred`.
function is_needed(path,    list, n, i) {
    n = split(inner[path], list, " ")
    for (i = 1; i <= n; i++) if (!is_going(refers_from[list[i]])) { referred = path_of(refers_to[list[i]]); return 1 }
    return 0
}

# The nodes of /omit-if-no-ref/ that go: those to which no value refers. Where a value that stays refers to a node below, a number would name
# nothing: the node stays.
function leave_out(    i, r, l, changed, path) {
    for (r = 1; r <= references; r++) if (stays(r)) named[path_of(refers_to[r])] = 1
    for (l in label_path) labelled[label_path[l]] = 1
    for (i = 1; i <= omissions; i++) {
        path = omitted[i]
        if (path in exists && !(path in named) && substr(path, 1, 1) == "/" && (raw || !(path in labelled))) going[path] = 1
    }
    for (r = 1; r <= references; r++) {
        if (!stays(r)) continue
        for (path = above(path_of(refers_to[r])); path != ""; path = above(path)) if (path in going) inner[path] = inner[path] " " r
    }
    do {
        changed = 0
        for (i = 1; i <= omissions; i++) {
            path = omitted[i]
            if (!(path in going) || !(path in inner) || !is_needed(path)) continue
            warn(omitted_at[i], path " stays, although nothing refers to it: something refers to " referred)
            delete going[path]
            changed = 1
        }
    } while (changed)
    for (i = 1; i <= omissions; i++) {
        path = omitted[i]
        if (path in going && !is_going(above(path))) { out[++outs] = "\n" marker(number + 1, file) "\n/delete-node/ &{" path "};\n"; changes++ }
    }
}

# ---- other files

function readable(path,    line) { if ((getline line < path) < 0) return 0; close(path); return 1 }

function found(wanted, from,    folder, count, i, list) {
    if (substr(wanted, 1, 1) == "/") return readable(wanted) ? wanted : ""
    folder = from
    if (!sub(/\/[^\/]*$/, "", folder)) folder = ""; else folder = folder "/"
    if (readable(folder wanted)) return folder wanted
    count = split(ENVIRON["DIALECT_DIRS"], list, "\n")
    for (i = 1; i <= count; i++) if (list[i] != "" && readable(list[i] "/" wanted)) return list[i] "/" wanted
    return ""
}

function note(path) { read_names[++reads] = path }

# The text in quotes at the front of the rest of a line; what stands before it, with the quotes, is `quoted` bytes long.
function text_in_front(    text) {
    if (!match(rest, /^[ \t]*"[^"]*"/)) return ""
    quoted = RLENGTH
    text = substr(rest, 1, quoted)
    sub(/^[ \t]*"/, "", text); sub(/"$/, "", text)
    return text
}

function include(    wanted, path, kept_rest, kept_column, kept_whole, kept_number, kept_file) {
    wanted = text_in_front()
    if (wanted == "") { put("/include/"); column += 9; return }
    path = found(wanted, source)
    if (path == "") stop_at("can't read \"" wanted "\"")
    if (++including > 100) stop_at("\"" wanted "\" is included by itself")
    note(path)
    column += 9 + quoted; rest = substr(rest, quoted + 1)
    kept_rest = rest; kept_column = column; kept_whole = whole; kept_number = number; kept_file = file
    put("\n" marker(1, escaped(path)) "\n")
    read_file(path, escaped(path))
    rest = kept_rest; column = kept_column; whole = kept_whole; number = kept_number; file = kept_file
    put(marker(number, file) "\n" blanks(whole, column))
    including--; changes++
}

# The bytes of a file, or a part of them: /incbin/("file") or /incbin/("file", offset, length).
function incbin(    given, wanted, path, parts, count, command, line, bytes) {
    if (!match(rest, /^[ \t]*\([ \t]*"[^"]*"[ \t]*(,[ \t]*[0-9A-Fa-fxX]+[ \t]*,[ \t]*[0-9A-Fa-fxX]+[ \t]*)?\)/)) { put("/incbin/"); column += 8; return }
    given = substr(rest, 1, RLENGTH); rest = substr(rest, RLENGTH + 1); column += 8 + RLENGTH
    wanted = given; sub(/^[^"]*"/, "", wanted); parts = wanted; sub(/"[^"]*$/, "", wanted); sub(/^[^"]*"/, "", parts)
    path = found(wanted, source)
    if (path == "") stop_at("can't read \"" wanted "\"")
    note(path)
    gsub(/'/, "'\\''", path)
    command = "od -An -v -tx1"
    gsub(/[^0-9A-Fa-fxX,]/, "", parts)
    count = split(parts, list_of, ",")
    if (count == 3) command = command " -j $((" list_of[2] ")) -N $((" list_of[3] "))"
    command = command " '" path "'"
    bytes = ""
    while ((command | getline line) > 0) bytes = bytes line "\n"
    close(command)
    put_in("[" bytes "]")
}

# ---- tokens

function take(n,    t) { t = substr(rest, 1, n); rest = substr(rest, n + 1); return t }

function pass(n) { put(take(n)); column += n }

# &{label/path}, where the label stands before: the path from the root.
function label_and_path(n,    t, l, p) {
    t = substr(rest, 3, n - 3); l = t; sub(/\/.*/, "", l); p = substr(t, length(l) + 1)
    if (!(l in label_path) || substr(label_path[l], 1, 1) == "&") return 0
    if (value) refer("&{" label_path[l] p "}"); else { last = "&{" label_path[l] p "}"; use_label("&" l) }
    take(n); column += n
    put_in("&{" label_path[l] p "}")
    return 1
}

function reference(n,    t) {
    if (match(rest, /^&\{[A-Za-z_][A-Za-z0-9_]*\/[^}]*\}/) && label_and_path(RLENGTH)) return
    match(rest, /^&(\{[^}]*\}|[A-Za-z_][A-Za-z0-9_]*)/)
    t = substr(rest, 1, RLENGTH)
    if (t !~ /^&\{/) refers[substr(t, 2)] = 1
    if (value) refer(t); else last = t
    pass(RLENGTH)
}

# In a value: up to its end, but for texts, comments and what is put in.
function in_value() {
    if (match(rest, /^[^"'\/&;]+/)) pass(RLENGTH)
    else if (match(rest, /^'([^'\\]|\\.)+'/)) pass(RLENGTH)
    else if (match(rest, /^&(\{[^}]*\}|[A-Za-z_][A-Za-z0-9_]*)/)) reference()
    else if (match(rest, /^\/incbin\//)) { take(8); incbin() }
    else if (substr(rest, 1, 1) == ";") { pass(1); value = 0; last = ""; labels = 0; let_go() }
    else pass(1)
}

function a_name(    n, t, at) {
    n = RLENGTH; t = substr(rest, 1, n)
    if (substr(rest, n + 1, 1) == ":" && t ~ /^[A-Za-z_][A-Za-z0-9_]*$/) {
        at = ++labels_of[t]
        if (knows && (strip && !(t in refers) || (t, at) in moved)) { take(n + 1); put(sprintf("%" (n + 1) "s", "")); column += n + 1; changes++; return }
        label[++labels] = t; label_at[labels] = at
        pass(n + 1)
        return
    }
    last = t
    pass(n)
}

# A word such as /delete-node/ begins what may be blanked.
function begin_tail() { if (!tail) { tail = length(pending) + 1; tail_at = spot(number, column + 1); tail_place = line_place + column } }

# A statement without a body ends. Returns whether it was blanked.
function end_statement(    path) {
    path = paths[depth] "/" last
    if (word == "/delete-node/" || word == "/delete-property/") {
        if (is_overlay && depth && last != "" && last !~ /^&/) {
            again = 1
            if (knows && !(path in will_be) && blank_tail(";")) { warn(tail_at, "this deletion has no effect on the base"); return 1 }
        } else if (word == "/delete-node/") delete_node(last)
        else delete value_of[paths[depth], last]
    } else if (omits && !depth && last ~ /^&/) {
        use_label(last)
        path = block_path(last)
        if (path in exists && blank_tail(";")) { omit(path); return 1 }
    } else if (word == "" && last != "" && last !~ /^[&\/]/) define(last)
    return 0
}

function in_body(    t, blanked) {
    hold()
    if (match(rest, /^\/omit-if-no-ref\//)) { begin_tail(); omits = 1; take(16); put("                "); column += 16; changes++ }
    else if (match(rest, /^\/include\//)) { let_go(); take(9); include() }
    else if (match(rest, /^\/plugin\//)) { is_overlay = 1; last = ""; pass(8) }
    else if (match(rest, /^\/[a-z0-9-]+\//)) { begin_tail(); word = substr(rest, 1, RLENGTH); pass(RLENGTH) }
    else if (match(rest, /^&(\{[^}]*\}|[A-Za-z_][A-Za-z0-9_]*)/)) reference()
    else if (match(rest, /^[A-Za-z0-9,._+*#?@-]+/)) a_name()
    else {
        t = substr(rest, 1, 1); blanked = 0
        if (t == "=" && word == "") { define(last); value = 1 }
        else if (t == ";") blanked = end_statement()
        else if (t == "{") { if (last != "") open_body(last) }
        else if (t == "}") close_body()
        else if (t == "/") last = "/"
        if (blanked) { take(1); column++ } else pass(1)
        if (t ~ /[=;{}]/) { let_go(); word = ""; if (t != "=") { last = ""; labels = 0; omits = 0 } }
    }
}

function scan() {
    while (rest != "") {
        if (comment) {
            if (match(rest, /\*\//)) { comment = 0; pass(RSTART + 1) } else pass(length(rest))
        } else if (text) {
            if (match(rest, /^([^"\\]|\\.)*"/)) { text = 0; pass(RLENGTH) } else pass(length(rest))
        } else if (substr(rest, 1, 2) == "/*") { comment = 1; pass(2) }
        else if (substr(rest, 1, 2) == "//") pass(length(rest))
        else if (match(rest, /^[ \t\r\f\v]+/)) pass(RLENGTH)
        else if (substr(rest, 1, 1) == "\"") { text = 1; pass(1) }
        else if (value) in_value()
        else in_body()
    }
}

function read_file(path, named,    line, kept) {
    kept = source; source = path; file = named; number = 0
    while ((getline line < path) > 0) {
        number++
        line_place = next_place; next_place += length(line) + 1
        if (!comment && !text && is_marker(line)) {
            put(line "\n")
            match(line, /[0-9]+/); number = substr(line, RSTART, RLENGTH) - 1
            sub(/^[^"]*"/, "", line); sub(/"[^"]*$/, "", line)
            if (line != "") file = line
        } else {
            whole = rest = line; column = 0
            scan()
            put("\n")
        }
    }
    close(path)
    source = kept
}

function read_all(path) {
    comment = text = value = depth = held = roots = is_overlay = labels = including = changes = bodies = again = omits = 0
    next_place = 0
    outs = warned = reads = nodes = values = references = omissions = 0
    pending = last = word = current = ""
    split("", seen); split("", exists); split("", label_path); split("", out); split("", defined); split("", value_of); split("", may_go); split("", opened)
    split("", holders); split("", holder); split("", labels_of)
    read_file(path, escaped(ENVIRON["DIALECT_SHOWN"]))
    let_go()
}

# Answers what is known in the end of the references in the file `asked`, a line each: `live PLACE REFERENCE`, or deleted, at that place, or unknown.
function answer(asked,    it, path, word, at) {
    while ((getline it < asked) > 0) {
        path = path_of(it); word = "unknown"; at = 0
        if (path != "" && path in exists || it ~ /^&\{\/*\}$/) word = "live"
        else if (it in deleted) { word = "deleted"; at = deleted[it] }
        else if (path in deleted) { word = "deleted"; at = deleted[path] }
        print word, at, it
    }
}

BEGIN {
    read_all(ARGV[1])
    if (ENVIRON["DIALECT_ASKED"] != "") { answer(ENVIRON["DIALECT_ASKED"]); exit }
    if (again || strip) {
        for (it in defined) will_be[it] = 1
        knows = 1
        read_all(ARGV[1])
    }
    if (omissions && !is_overlay) leave_out()
    for (i = 1; i <= warned && !quiet; i++) print warnings[i] > "/dev/stderr"
    if (ENVIRON["DIALECT_NAMES"] != "") for (i = 1; i <= reads; i++) print read_names[i] > ENVIRON["DIALECT_NAMES"]
    if (!changes) exit 3
    for (i = 1; i <= outs; i++) printf "%s", out[i]
}

END { if (failed) exit 1 }
