# Counts the functions with a body in Rattle sources. The braces after `requires` or `ensures`
# aren't a body.
{
    gsub(/'[{}();]'|"([^"\\]|\\.)*"/, "")
    sub(/\/\/.*/, "")
    while (match($0, /[A-Za-z_][A-Za-z_0-9]*|[(){};[]|]/)) {
        word = substr($0, RSTART, RLENGTH)
        $0 = substr($0, RSTART + RLENGTH)
        if (!is_head) {
            is_head = before == "fn" && word ~ /^[A-Za-z_]/
            depth = 0
            in_clause = 0
        } else if (word ~ /^[([{]$/) {
            if (word == "{" && depth == 0 && !in_clause) {
                number++
                is_head = 0
            }
            depth++
        } else if (word ~ /^[])}]$/) {
            depth--
            if (word == "}" && depth == 0) in_clause = 0
        } else if (depth == 0) {
            if (word ~ /^(requires|ensures)$/) in_clause = 1
            if (word == ";") is_head = 0
        }
        before = word
    }
}
END { print number + 0 }
