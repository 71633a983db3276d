# What an object's fault in applying is about: reads the object's text, as `dtool print` writes it. Variable: base (a file with the text of the base,
# with the objects before). Environment: WHERE_WORDS (the fault), WHERE_HEAD (what a line begins with), WHERE_NAME and WHERE_BASE (the object's and
# the base's names).
#
# A tree is kept as `there[TREE, PATH]` and `value[TREE, PATH, NAME]`, TREE being "object" or "base"; in lists the order of the text.

function name_of(line) { sub(/^\t*/, "", line); sub(/( = .*|;|: .*| \{)$/, "", line); return line }

function depth_of(line) { match(line, /^\t*/); return RLENGTH }

# A line of a tree's text.
function read_line(tree, line,    depth, name, path) {
    depth = depth_of(line)
    if (line ~ / \{$/) {
        path = depth ? at[tree, depth - 1] "/" name_of(line) : ""
        at[tree, depth] = path
        there[tree, path] = 1
        list[tree, ++count[tree]] = path
    } else if (depth && line ~ /;$/ && line !~ /^\t*\};$/) {
        name = name_of(line); path = at[tree, depth - 1]
        if (!sub(/^[^=]*= /, "", line)) line = ";"
        sub(/;$/, "", line)
        value[tree, path, name] = line
        names[tree, path] = names[tree, path] (names[tree, path] == "" ? "" : "\n") name
        if (name == "phandle") node_of[tree, line] = path
    }
}

# ---- values

# The bytes of a value as hexadecimal digits.
function bytes_of(printed,    hex, i, c, cells, n) {
    if (printed ~ /^"/) {
        for (i = 2; i <= length(printed); i++) {
            c = substr(printed, i, 1)
            if (c == "\\") c = substr(printed, ++i, 1)
            else if (c == "\"") { hex = hex "00"; i += 3; continue }
            hex = hex sprintf("%02x", code[c])
        }
        return hex
    }
    if (printed ~ /^</) {
        gsub(/[<>]/, "", printed)
        n = split(printed, cells, " ")
        for (i = 1; i <= n; i++) { c = substr(cells[i], 3); while (length(c) < 8) c = "0" c; hex = hex c }
        return hex
    }
    gsub(/[^0-9a-f]/, "", printed)
    return printed
}

# A value's texts; the number of them, or 0 where it isn't texts.
function texts_of(printed, texts,    n, i, c, part) {
    if (printed !~ /^"/) return 0
    n = 1; part = ""
    for (i = 2; i <= length(printed); i++) {
        c = substr(printed, i, 1)
        if (c == "\\") part = part substr(printed, ++i, 1)
        else if (c == "\"") { texts[n++] = part; part = ""; i += 3 }
        else part = part c
    }
    return n - 1
}

# ---- what is printed

function is_reserved(path) { return path ~ /^\/(__symbols__|__fixups__|__local_fixups__)(\/|$)/ }

# Whether a node is in what a fragment brings.
function is_content(path) { return path ~ /^\/[^\/]*\/__overlay__(\/|$)/ }

function tell(words) { print head fault ": " words; told = 1 }

# Why four bytes of the object aren't there; empty where they are.
function why_no_cell(path, name, offset) {
    if (!(("object", path) in there)) return "no node " (path == "" ? "/" : path)
    if (!(("object", path, name) in value)) return "no property " name " in " (path == "" ? "/" : path)
    if (offset !~ /^[0-9]+$/) return "no offset"
    if (2 * offset + 8 > length(bytes_of(value["object", path, name]))) return "no four bytes there"
    return ""
}

# What is wrong with a label of the base; empty where nothing is.
function why_no_symbol(label,    texts, path) {
    if (texts_of(value["base", "/__symbols__", label], texts) != 1) return "no path"
    path = texts[1] == "/" ? "" : texts[1]
    if (!(("base", path) in there)) return "no node has this path"
    if (!(("base", path, "phandle") in value)) return "the node has no phandle"
    return ""
}

# The texts of __fixups__, one after the other, with the base's labels; the first that has the fault.
function bad_fixup(    labels, n, i, texts, m, j, part, why, label, entry) {
    n = split(names["object", "/__fixups__"], labels, "\n")
    for (i = 1; i <= n; i++) {
        label = labels[i]
        entry = value["object", "/__fixups__", label]
        m = texts_of(entry, texts)
        if (fault ~ / BadFixup/) {
            if (!m) { tell("/__fixups__ " label " = " entry ": no texts PATH:PROPERTY:OFFSET"); return }
            for (j = 1; j <= m; j++) {
                why = split(texts[j], part, ":") == 3 ? why_no_cell(part[1] == "/" ? "" : part[1], part[2], part[3]) : "no text PATH:PROPERTY:OFFSET"
                if (why != "") { tell("/__fixups__ " label " = \"" texts[j] "\": " why); return }
            }
        }
        if (!(("base", "/__symbols__", label) in value)) continue
        why = why_no_symbol(label)
        if (fault ~ / BadSymbol/ && why != "") {
            head = style ENVIRON["WHERE_BASE"] ": "
            tell("/__symbols__ " label " = " value["base", "/__symbols__", label] ": " why)
            return
        }
    }
}

# The object's own labels.
function bad_symbol(    labels, n, i, texts, part) {
    n = split(names["object", "/__symbols__"], labels, "\n")
    for (i = 1; i <= n; i++) {
        if (texts_of(value["object", "/__symbols__", labels[i]], texts) != 1) part = "no text"
        else if (is_content(texts[1]) && !(("object", texts[1]) in there)) part = "no node of the object has this path"
        else continue
        tell("/__symbols__ " labels[i] " = " value["object", "/__symbols__", labels[i]] ": " part)
        return
    }
}

# The cells of __local_fixups__.
function bad_local_fixup(    i, path, mirror, listed, n, j, k, hex, offset, why, number, target) {
    for (i = 1; i <= count["object"]; i++) {
        mirror = list["object", i]
        if (mirror !~ /^\/__local_fixups__(\/|$)/) continue
        path = substr(mirror, 18)
        if (!(("object", path) in there)) { tell(mirror ": no node " path); return }
        n = split(names["object", mirror], listed, "\n")
        for (j = 1; j <= n; j++) {
            hex = bytes_of(value["object", mirror, listed[j]])
            if (length(hex) % 8) { tell(mirror " " listed[j] ": not a list of offsets"); return }
            for (k = 1; k <= length(hex); k += 8) {
                offset = number_of(substr(hex, k, 8))
                why = why_no_cell(path, listed[j], offset)
                if (why == "") {
                    number = "0x" substr(bytes_of(value["object", path, listed[j]]), 2 * offset + 1, 8)
                    sub(/^0x0+/, "0x", number); if (number == "0x") number = "0x0"
                    target = ("object", "<" number ">") in node_of ? node_of["object", "<" number ">"] : "none"
                    if (target == "none") why = "no node of the object has phandle " number
                    else if (is_content(path) && !is_content(target)) why = "phandle " number " is that of " target ", which is in no fragment"
                }
                if (why != "") { tell(mirror " " listed[j] ", offset " offset ": " why); return }
            }
        }
    }
}

function number_of(hex,    i, n) { n = 0; for (i = 1; i <= length(hex); i++) n = n * 16 + index("0123456789abcdef", substr(hex, i, 1)) - 1; return n }

# A fragment, as far as fault 62, 66 or 67 is about it.
function look_at(f,    path, target, i) {
    target = value["object", f, "target-path"]
    gsub(/"/, "", target)
    if (fault ~ / NoFragmentTarget/ && !(("object", f, "target") in value) && target == "") tell(f " has no target")
    if (fault ~ / NoTarget/ && !(("object", f, "target") in value) && target != "") {
        path = target == "/" ? "" : target
        if (!(("base", path) in there) && !(path in brought)) tell(f ": no node " target)
        for (i = 1; i <= count["object"]; i++) {
            if (index(list["object", i], f "/__overlay__/") == 1) brought[path substr(list["object", i], length(f "/__overlay__") + 1)] = 1
        }
    }
    if (fault ~ / ReservedPlace/) {
        if (is_reserved(target)) tell(f ": " target " is a bookkeeping node")
        else if (target == "/") for (i = 1; i <= count["object"]; i++) {
            path = list["object", i]
            if (index(path, f "/__overlay__/") != 1) continue
            path = substr(path, length(f "/__overlay__") + 1)
            if (path ~ /^\/[^\/]*$/ && is_reserved(path)) tell(f " adds to " path ", a bookkeeping node")
        }
    }
}

BEGIN {
    fault = ENVIRON["WHERE_WORDS"]; style = ENVIRON["WHERE_HEAD"]; head = style ENVIRON["WHERE_NAME"] ": "
    for (i = 32; i < 127; i++) code[sprintf("%c", i)] = i
    while ((getline line < base) > 0) read_line("base", line)
}

{ read_line("object", $0) }

END {
    if (fault ~ / NoSymbol/) {
        n = split(names["object", "/__fixups__"], labels, "\n")
        for (i = 1; i <= n; i++) {
            if (("base", "/__symbols__", labels[i]) in value) continue
            tell("the base has no label " labels[i] ", which " value["object", "/__fixups__", labels[i]] " needs")
        }
    } else if (fault ~ / BadFixup/) bad_fixup()
    else if (fault ~ / BadSymbol/) { bad_fixup(); if (!told) bad_symbol() }
    else if (fault ~ / BadLocalFixup/) bad_local_fixup()
    else for (i = 1; i <= count["object"] && !(told && fault ~ / NoTarget/); i++) {
        f = list["object", i]
        if (f ~ /^\/[^\/]*$/ && f != "" && ("object", f "/__overlay__") in there) look_at(f)
    }
    if (!told) print head fault
}
