# A blob, whose bytes are read as decimal numbers, as `od -An -v -tu1` writes them.

{ for (i = 1; i <= NF; i++) bytes[count++] = $i + 0 }

function word(at) { return ((bytes[at] * 256 + bytes[at + 1]) * 256 + bytes[at + 2]) * 256 + bytes[at + 3] }

# The text at a place, up to a NUL; the NUL's place is then `ended`.
function text_at(at,    text) { text = ""; while (at < count && bytes[at] != 0) text = text sprintf("%c", bytes[at++]); ended = at; return text }
