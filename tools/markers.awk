# Line markers, as cpp writes them: `# LINE "NAME" FLAGS`, with a backslash before each quote and backslash of the name.

function is_marker(line) { return line ~ /^#(line)?[ \t]+[0-9]+[ \t]+"/ }

function escaped(name,    text, i, c) {
    if (name !~ /["\\]/) return name
    for (i = 1; i <= length(name); i++) { c = substr(name, i, 1); text = text (c ~ /["\\]/ ? "\\" : "") c }
    return text
}

function unescaped(name,    text, i, c) {
    if (name !~ /\\/) return name
    for (i = 1; i <= length(name); i++) { c = substr(name, i, 1); if (c == "\\") c = substr(name, ++i, 1); text = text c }
    return text
}
