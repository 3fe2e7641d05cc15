# The line of one event of a log that is one, or of each, for people to see: a look by other means than the proved program. -v event=N: its ordinal from 0; -v event=all: every one.
function value(tag, name,    quote) {
    if (!match(tag, "[ \t\r\n]" name "[ \t\r\n]*=[ \t\r\n]*(\"|\047)")) return ""
    quote = substr(tag, RSTART + RLENGTH - 1, 1)
    tag = substr(tag, RSTART + RLENGTH)
    return substr(tag, 1, index(tag, quote) - 1)
}
function passed(close_,    at) {
    at = index(text, close_)
    text = substr(text, at ? at + length(close_) : length(text) + 1)
}
{ text = text $0 "\n" }
END {
    ordinal = -1
    while (at = index(text, "<")) {
        text = substr(text, at)
        if (substr(text, 1, 4) == "<!--") { passed("-->"); continue }
        if (substr(text, 1, 9) == "<![CDATA[") { passed("]]>"); continue }
        if (substr(text, 1, 2) == "<?") { passed("?>"); continue }
        if (!match(text, /^<([^>"\047]|"[^"]*"|\047[^\047]*\047)*>/)) exit
        tag = substr(text, 1, RLENGTH)
        text = substr(text, RLENGTH + 1)
        if (tag ~ /^<\//) { depth--; continue }
        name = tag
        gsub(/^<|[ \t\r\n\/>].*$/, "", name)
        sub(/^.*:/, "", name)
        depth++
        if (depth == 3 && (inside = name == "event")) ordinal++
        if (depth == 4 && inside && name == "string" && (event == "all" || ordinal == event) && value(tag, "key") == "concept:name") { print value(tag, "value"); if (event != "all") exit }
        if (tag ~ /\/>$/) depth--
    }
}
