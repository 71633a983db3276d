# A folder as a source: a file is a property, in the bytes that it has, and a folder a node. Reads the names of the folders, a line each; what `wc -c`
# writes of the files; and their bytes, one file after the other, as `od -An -v -tx1` writes them. Environment: FOLDER, the first folder's name.
#
# A file `name` has to hold the name of its node, without the unit address, and is left out. Line markers name what each part comes from.

function above(path) { sub(/\/[^\/]*$/, "", path); return path }

function last_name(path) { sub(/.*\//, "", path); return path }

# The bytes of the name of a node, without its unit address, and a NUL.
function bytes_of_name(path,    name, hex, i) {
    name = path == ENVIRON["FOLDER"] ? "" : last_name(path)
    sub(/@.*/, "", name)
    for (i = 1; i <= length(name); i++) hex = hex sprintf(" %02x", code[substr(name, i, 1)])
    return hex " 00"
}

function add(list, path, item) { list[path] = list[path] (list[path] == "" ? "" : "\n") item }

function write(path,    list, n, i) {
    printf "# 1 \"%s\"\n%s {\n", escaped(path), path == ENVIRON["FOLDER"] ? "/" : last_name(path)
    n = split(files[path], list, "\n")
    for (i = 1; i <= n; i++) print (bytes[list[i]] == "" ? last_name(name[list[i]]) : last_name(name[list[i]]) " = [" bytes[list[i]] "]") ";"
    n = split(folders[path], list, "\n")
    for (i = 1; i <= n; i++) write(list[i])
    print "};"
}

FNR == 1 { part++ }
part == 1 { if ($0 != ENVIRON["FOLDER"]) add(folders, above($0), $0); next }
part == 2 {
    if (/^ *[0-9]+ total$/) next
    size[++count] = $1; sub(/^ *[0-9]+ /, ""); name[count] = $0
    if (last_name($0) != "name") add(files, above($0), count); else names[++named] = count
    next
}
{
    for (i = 1; i <= NF; i++) {
        while (!left) left = size[++at]
        bytes[at] = bytes[at] " " $i
        left--
    }
}

BEGIN { for (i = 32; i < 127; i++) code[sprintf("%c", i)] = i }

END {
    for (i = 1; i <= named; i++) {
        if (bytes[names[i]] == bytes_of_name(above(name[names[i]]))) continue
        print "Error: " name[names[i]] ": not the name of the node" > "/dev/stderr"
        exit 1
    }
    print "/dts-v1/;"
    write(ENVIRON["FOLDER"])
}
