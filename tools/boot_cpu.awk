# The `reg` of the first node in /cpus, where it is one cell; else 0; over blob.awk.

function first_cpu(    at, token, depth, in_cpus, strings, size) {
    at = word(8); strings = word(12)
    while ((token = word(at)) != 9) {
        at += 4
        if (token == 1) {
            depth++
            if (depth == 2) in_cpus = text_at(at) == "cpus"; else text_at(at)
            at = ended + 4 - ended % 4
        } else if (token == 2) {
            if (in_cpus && depth == 3) return 0
            depth--
        } else if (token == 3) {
            size = word(at)
            if (in_cpus && depth == 3 && size == 4 && text_at(strings + word(at + 4)) == "reg") return word(at + 8)
            at += 8 + int((size + 3) / 4) * 4
        }
    }
    return 0
}

END { printf "%.0f\n", first_cpu() }
