# A text that was refused with 28: the first pool that has no room for what its endSnds become, as its number, its elements, its endSnds and the edges that it uses.
# The text is one of the notation and passes the checks, or it would have been refused before.
function edge(e) { if (e ~ /^[0-9]+$/ && !((pool, e) in used)) { used[pool, e]; edges++ } }
function element(kind, parts,    i, n, a) {
    elements++
    if (kind == "endSnd") ends++
    n = split(parts, a, ",")
    if (kind ~ /^task/) { edge(a[1]); edge(a[n]); return }
    if (kind == "xorSplit") {
        edge(a[1])
        for (i = 2; i <= n; i++) if (a[i] ~ /\(/) { gsub(/[{(]/, "", a[i]); edge(a[i]) }
        return
    }
    # a part with a colon is a message
    for (i = 1; i <= n; i++) { gsub(/[{}()]/, "", a[i]); edge(a[i]) }
}
function told() { if (elements + ends > 32 || edges + ends > 48) { print pool, elements, ends, edges; exit } }
{ text = text $0 " " }
END {
    gsub(/[ \t]/, "", text)
    gsub(/:<[^>]*>/, ":", text)
    while (match(text, /^[^A-Za-z]*(pool|miPool)\([0-9]+,/)) {
        pool = substr(text, 1, RLENGTH - 1)
        sub(/^.*\(/, "", pool)
        text = substr(text, RLENGTH + 1)
        elements = ends = edges = 0
        do {
            match(text, /^[A-Za-z]+\(/)
            kind = substr(text, 1, RLENGTH - 1)
            depth = 1
            for (i = RLENGTH + 1; depth; i++) {
                sign = substr(text, i, 1)
                if (sign == "") exit
                if (sign == "(") depth++
                if (sign == ")") depth--
            }
            element(kind, substr(text, RLENGTH + 1, i - RLENGTH - 2))
            sign = substr(text, i, 1)
            text = substr(text, i + 1)
        } while (sign == "|")
        told()
    }
}
