# What a planner may not have meant in a drawing that is read: a line each, the place of the tag and the words. After tags.awk; the drawing is on standard input.
function condition_of(flow,    i, s) {
    for (i = 1; i <= count; i++) {
        if (local[i] != "conditionExpression" || parent[i] != flow || tags[i] ~ /\/$/) continue
        s = substr(text, behind[i])
        s = substr(s, 1, index(s, "</") - 1)
        gsub(/<!\[CDATA\[|\]\]>/, "", s)
        s = plain(s)
        gsub(/ +/, " ", s)
        gsub(/^ | $/, "", s)
        return s
    }
    return ""
}
function splits(i) { return local[i] == "exclusiveGateway" && counted("sequenceFlow", from, attribute(tags[i], "id")) > 1 }
function note(i, words) { print places[i] "\t" titled(tags[i]) ": " words }
function branches(gate,    i, id, all, first, c) {
    id = attribute(tags[gate], "id")
    all = reference(tags[gate], "default") == ""
    for (i = 1; i <= count; i++) {
        if (local[i] != "sequenceFlow" || from[i] != id) continue
        if (!first) first = i
        c = condition_of(i)
        if (c != "" && c != "true") all = 0
        # that nothing sets it and the branch never opens: theorems drawn-unset and drawn-never of docs/THEOREMS.md
        if (attribute(tags[i], "id") != reference(tags[gate], "default") && match(c, /[ds][0-9]+/))
            note(i, "its condition \047" c "\047 asks for " substr(c, RSTART, RLENGTH) ", which nothing in a drawing sets: no message carries values and no task assigns, so this branch never opens")
    }
    if (all) note(gate, "all its branches are true, so the first, " titled(tags[first]) ", is always taken: give them conditions, or one the default")
}
BEGIN { RS = "\001"; place = -1 }
{ text = text $0 }
END {
    scan()
    for (i = 1; i <= count; i++) {
        if (splits(i)) branches(i)
        if (local[i] != "participantMultiplicity" || owns[parent[i]] == "") continue
        least = attribute(tags[i], "minimum"); most = attribute(tags[i], "maximum")
        if (most == "") note(i, "without a maximum one instance is made, by the standard\047s default of 1")
        if (least != "" && least + 0 > (most == "" ? 1 : most + 0)) note(i, "its minimum " least " is above its maximum " (most == "" ? 1 : most) "; the minimum is not looked at")
    }
}
