# The part of a blob, or the node, that a place of it belongs to; over blob.awk.
# Variable: place. Environment: WHERE_NAME (the blob's name), WHERE_WORDS, WHERE_STYLE.

function path(    text, i) { text = ""; for (i = 2; i <= depth; i++) text = text "/" names[i]; return text == "" ? "/" : text }

# The structure block, token by token, up to the one with the place.
function in_structure(at, end,    token, from, property) {
    strings = word(12)
    while (at < end && at < count) {
        from = at; token = word(at); at += 4; property = ""
        if (token == 1) { names[++depth] = text_at(at); at = ended + 4 - ended % 4 }
        else if (token == 3) { property = text_at(strings + word(at + 4)); at += 8 + int((word(at) + 3) / 4) * 4 }
        if (place >= from && place < at) return "node " path() (property == "" ? "" : ", property " property)
        if (token == 2) depth--
        else if (token != 1 && token != 3 && token != 4) break
    }
    return "node " path() ", in the structure block"
}

function part() {
    if (place < 40 || count < 40) return "the header"
    if (place >= word(8) && place < word(8) + word(36)) return in_structure(word(8), word(8) + word(36))
    if (place >= word(12) && place < word(12) + word(32)) return "the strings block, which begins at " word(12)
    if (place >= word(16)) return "the memory reservations"
    return "between the blocks"
}

END {
    style = ENVIRON["WHERE_STYLE"]; words = ENVIRON["WHERE_WORDS"]
    print (style == "" ? "" : style ": ") ENVIRON["WHERE_NAME"] ": " (words == "" ? "" : words ": ") "byte " place ", " part()
}
