# A text of the notation that was refused with 2, 3 or 4, looked at by its grammar: a line with a place and what is said of it; nothing where this look finds nothing.
# With number 2 and 3, place is where the text is at fault: what could stand there. With 4, check is the lowest one broken: what breaks it. The grammar is that of docs/NOTATION.md.

# the token that comes next: t its bytes, at its place, from 0
function next_token(    from) {
    from = at + length(t)
    match(substr(text, from + 1), /^[ \t\n]*/)
    at = from + RLENGTH
    match(substr(text, at + 1), /^([A-Za-z0-9_]+|:=)/)
    t = substr(text, at + 1, RLENGTH > 0 ? RLENGTH : 1)
    also = ""
}
function joined(words,    n, a, k, said) {
    n = split(words, a, ";")
    for (k = 1; k <= n; k++) said = said (k == 1 ? "" : k == n ? " or " : ", ") a[k]
    return said
}
# words: what could stand here, with `;` between; where the fault is here, it is said
function need(words) {
    if (at < place) return
    if (at > place) exit
    words = over != "" ? over : words == keywords ? "an element starts with " joined(words) : "here could stand " joined(also == "" ? words : also ";" words)
    print at, (number == 3 ? out_of_range() : unexpected()) " (" number "): " words
    exit
}
function shown() { return "`" (length(t) > 32 ? substr(t, 1, 29) "..." : t) "`" }
function unexpected() { return t == "" ? "the text ends too early" : t ~ /^[!-~]/ ? "unexpected " shown() : "unexpected byte" }
function out_of_range() { return over != "" ? "one too many" : shown() " is outside its range" }
# a token that must stand here; the text is otherwise than it should be where it does not
function sign(s) { need("`" s "`"); if (t != s) exit; next_token() }
function word(pattern, words,    w) { need(words); if (t !~ pattern) exit; w = t; next_token(); return w }
function numeral(words) { return word("^(0|[1-9][0-9]*)$", words) }
function could(s) { if (at < place && t == s) return 1; also = also (also == "" ? "" : ";") "`" s "`"; return 0 }
# another item behind n of them, at most so many
function another(separator, n, most, what) {
    if (n >= most) {
        if (t != separator || at >= place) return 0
        next_token()
        over = "there are at most " most " " what
        need("")
        exit
    }
    if (!could(separator)) return 0
    next_token()
    return 1
}
function edge(list,    e, from) {
    from = at
    e = numeral("an edge, a number from 1 to 48")
    list[pool, e] = list[pool, e] (list[pool, e] == "" ? "" : " ") element
    if (!((pool, e) in where)) { where[pool, e] = from; order[++mentioned] = pool SUBSEP e }
    return e
}
function field() { return word("^[ds](0|[1-9][0-9]*)$", "a field, `d0` to `d15` or `s0` to `s15`") }
function operand() { return word("^[ds]?(0|[1-9][0-9]*)$", "a number;a field") }
function expression() { operand(); if (could("+") || could("-")) { next_token(); operand() } }
function message(received,    m, n, from) {
    from = at
    m = numeral("a message name, a number from 0 to 15")
    if (received) { if (!((m, pool) in gets)) { gets[m, pool] = from; got[++receivings] = m SUBSEP pool } } else if (!((m, pool) in sends)) sends[m, pool] = from
    sign(":")
    sign("<")
    split("", bound)
    if (could(">")) { next_token(); return }
    do item(received); while (another(",", ++n, 4, "values in a message"))
    sign(">")
}
function item(received,    d, from) {
    if (!received) { expression(); return }
    if (!could("?")) { expression(); return }
    next_token()
    from = at
    d = field()
    if (d in bound && !twice) { twice = from + 1; twiceSaid = called(element) " binds " d " twice in one template" }
    bound[d]
}
function edges(list,    n) {
    sign("{")
    edge(list); sign(","); edge(list)
    for (n = 2; another(",", n, 8, "edges in a list"); n++) edge(list)
    sign("}")
}
function branch() { sign("("); message(1); sign(","); edge(exits); sign(")") }
function choice() {
    sign("("); edge(exits); sign(",")
    need("`true`;`default`;a number;a field")
    if (t == "default") { if (++defaults == 2 && !more) { more = at + 1; moreSaid = called(element) " has a second default" } next_token() }
    else guard()
    sign(")")
}
function guard(    w) {
    w = word("^(true|[ds]?(0|[1-9][0-9]*))$", "`true`;a number;a field")
    if (w == "true") return
    word("^[=<]$", "`=`;`<`")
    operand()
}
function branches(choosing,    n) {
    if (choosing) { sign("{"); choice(); sign(","); choice() } else { branch(); sign(","); branch() }
    for (n = 2; another(",", n, 8, "branches"); n++) if (choosing) choice(); else branch()
    if (choosing) sign("}")
}
function work(    n, from) {
    from = at
    n = numeral("a task number, from 1 to 16")
    if ((pool, n) in tasks && !again) { again = from + 1; againSaid = "task number " n " of pool " pools[pool] " stands at element " tasks[pool, n] " and at element " element }
    tasks[pool, n] = element
    sign(",")
    word("^(a|na_c|na_nc)$", "`a`;`na_c`;`na_nc`")
    sign(",")
    guard()
    sign(",")
    sign("{")
    n = 0
    if (!could("}")) do { field(); sign(":="); expression() } while (another(",", ++n, 4, "assignments"))
    sign("}")
    sign(",")
}
function called(e) { return "element " e " of pool " pools[pool] ", " kinds[pool, e] "," }
function one(    kind) {
    starting = at
    need(keywords)
    kind = t
    if (index(";" keywords ";", ";" kind ";") == 0) exit
    next_token()
    kinds[pool, element] = kind
    places[pool, element] = starting
    if (kind ~ /^start/) { begins[pool] = begins[pool] (begins[pool] == "" ? "" : " and ") element; began[pool]++ }
    sign("(")
    defaults = 0
    if (kind == "start") { first[pool, edge(entries)]; sign(","); edge(exits) }
    else if (kind == "startRcv") { message(1); sign(","); edge(exits) }
    else if (kind ~ /Join$/) { edges(entries); sign(","); edge(exits) }
    else {
        edge(entries)
        if (kind != "end" && kind != "terminate") sign(",")
        if (kind ~ /^task/) work()
        if (kind ~ /^(interRcv|taskRcv)$/) { message(1); sign(",") }
        if (kind ~ /^(interSnd|taskSnd)$/) { message(0); sign(",") }
        if (kind == "endSnd") message(0)
        if (kind == "andSplit") edges(exits)
        if (kind == "eventBased") branches(0)
        if (kind == "xorSplit") branches(1)
        if (kind ~ /^(inter|task)/) edge(exits)
    }
    sign(")")
}
function one_pool(    kind) {
    need("`pool`;`miPool`")
    kind = t
    if (kind != "pool" && kind != "miPool") exit
    pool++
    poolPlaces[pool] = at
    many[pool] = kind == "miPool"
    next_token()
    sign("(")
    pools[pool] = numeral("the pool\047s number, from 1 to 9")
    sign(",")
    element = 0
    do one(); while (another("|", ++element, 32, "elements in a pool"))
    if (many[pool]) { sign(","); numeral("the number of instances, from 1 to 16") }
    sign(")")
}

# what breaks a check, and its place
function say(from, words) { print from, words; exit }
function elements_of(list,    n, a, k, said) {
    n = split(list, a, " ")
    if (!n) return "no element"
    if (n == 2 && a[1] == a[2]) return "element " a[1] ", twice,"
    for (k = 1; k <= n; k++) said = said (k == 1 ? "" : k == n ? " and " : ", ") a[k]
    return (n == 1 ? "element " : "elements ") said
}
function broken(    k, j, p, q, e, m, a) {
    if (check == 1) for (p = 2; p <= pool; p++) for (q = 1; q < p; q++) if (pools[p] == pools[q]) say(poolPlaces[p], "a second pool with the number " pools[p])
    if (check == 2) for (p = 1; p <= pool; p++) if (began[p] != 1) say(poolPlaces[p], "pool " pools[p] " has " (began[p] ? began[p] " of start and startRcv, elements " begins[p] : "no start and no startRcv"))
    if (check == 3) for (p = 1; p <= pool; p++) if (many[p] && kinds[p, begins[p]] == "start") say(places[p, begins[p]], "pool " pools[p] " is a miPool, and element " begins[p] " is a start")
    if (check == 4) for (k = 1; k <= mentioned; k++) {
        split(order[k], a, SUBSEP)
        p = a[1]; e = a[2]
        if (split(entries[p, e], a, " ") != 1 || split(exits[p, e], a, " ") != !((p, e) in first))
            say(where[p, e], "edge " e " of pool " pools[p] ((p, e) in first ? ", the first of a start," : "") " is an entry of " elements_of(entries[p, e]) " and an exit of " elements_of(exits[p, e]))
    }
    if (check == 5 && again) say(again - 1, againSaid)
    if (check == 6) for (k = 1; k <= receivings; k++) {
        split(got[k], a, SUBSEP)
        m = a[1]; p = a[2]
        for (j = 1; j < k; j++) { split(got[j], a, SUBSEP); if (a[1] == m) say(gets[m, p], "message " m " is received in pool " pools[a[2]] " and in pool " pools[p]) }
        if ((m, p) in sends) say(gets[m, p], "message " m " is received in pool " pools[p] " and sent there")
    }
    if (check == 7 && more) say(more - 1, moreSaid)
    if (check == 8 && twice) say(twice - 1, twiceSaid)
}
BEGIN {
    RS = "\001"
    keywords = "start;startRcv;end;terminate;endSnd;interRcv;interSnd;eventBased;andSplit;andJoin;xorJoin;xorSplit;task;taskRcv;taskSnd"
}
{ text = text (NR > 1 ? RS : "") $0 }
END {
    if (place == "") place = length(text) + 1
    next_token()
    do one_pool(); while (another("|", ++n, 4, "pools"))
    need("the text\047s end")
    broken()
}
