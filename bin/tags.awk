# Tags of a drawing, whose text is in `text`, with a blank for each tab and newline: an attribute's value, the tag at a place, and what it is called.
function plain(s) { gsub(/&lt;/, "<", s); gsub(/&gt;/, ">", s); gsub(/&quot;/, "\"", s); gsub(/&apos;/, "\047", s); gsub(/&#(9|10|13|x[9aAdD]);/, " ", s); gsub(/&amp;/, "\\&", s); return s }
function attribute(tag, name,    s) {
    if (!match(tag, " " name " *= *(\"[^\"]*\"|\047[^\047]*\047)")) return ""
    s = substr(tag, RSTART, RLENGTH)
    sub(/^[^"\047]*./, "", s)
    return plain(substr(s, 1, length(s) - 1))
}
# the tag whose `<` stands at a place, without `<`, up to its `>` that stands in no value
function tag_at(place,    rest, past) {
    rest = substr(text, place + 2)
    past = 0
    while (match(rest, /^[^"\047>]*("[^"]*"|\047[^\047]*\047)/)) { past += RLENGTH; rest = substr(rest, RLENGTH + 1) }
    match(rest, /^[^>]*/)
    return substr(text, place + 2, past + RLENGTH)
}
function local_of(tag) { sub(/[ \/].*/, "", tag); sub(/^.*:/, "", tag); return tag }
function titled(tag,    id, name) {
    id = attribute(tag, "id")
    name = attribute(tag, "name")
    return local_of(tag) (id == "" ? "" : " " id) (name == "" ? "" : " \047" name "\047")
}
function called(place) { return titled(tag_at(place)) }
function reference(tag, name,    s) { s = attribute(tag, name); sub(/^.*:/, "", s); return s }

# every element that is not inside vendors' data, with the one it stands in
function scan(    at, i, tag, depth, open, skip) {
    at = 1
    while (i = index(substr(text, at), "<")) {
        at += i - 1
        if (substr(text, at, 4) == "<!--") { at += index(substr(text, at), "-->") + 2; continue }
        if (substr(text, at, 9) == "<![CDATA[") { at += index(substr(text, at), "]]>") + 2; continue }
        if (substr(text, at, 2) == "<?") { at += index(substr(text, at), "?>") + 1; continue }
        if (substr(text, at, 2) == "</") { if (skip == depth) skip = 0; depth--; at++; continue }
        tag = tag_at(at - 1)
        depth++
        if (!skip) {
            count++
            tags[count] = tag; local[count] = local_of(tag); parent[count] = open[depth - 1]; open[depth] = count
            from[count] = reference(tag, "sourceRef"); to[count] = reference(tag, "targetRef"); owns[count] = reference(tag, "processRef")
            if (at - 1 == place) here = count
            places[count] = at - 1; behind[count] = at + length(tag) + 2
            if (local[count] == "extensionElements" || local[count] == "documentation") skip = depth
        }
        if (tag ~ /\/$/) { if (skip == depth) skip = 0; depth-- }
        at += length(tag) + 1
    }
}
function with_id(id,    i) { if (id != "") for (i = 1; i <= count; i++) if (attribute(tags[i], "id") == id) return i; return 0 }
function counted(kind, list, id,    i, n) { if (id == "") return 0; for (i = 1; i <= count; i++) if (local[i] == kind && list[i] == id) n++; return n + 0 }
