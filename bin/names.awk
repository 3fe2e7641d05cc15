# The lines of a drawing's run, each with what the drawing calls its element and its message, behind two blanks: the kind, the id and the name that stand in the tag at the place which the map has.
# After tags.awk; -v map=FILE what bin/map prints; -v drawing=FILE the drawing, with a blank for each tab and newline; standard input has the run's lines.
BEGIN {
    while ((getline line < drawing) > 0) text = text line
    while ((getline line < map) > 0) {
        split(line, word, " ")
        if (word[1] == "element" && !((word[2], word[3]) in element)) element[word[2], word[3]] = word[4]
        if (word[1] == "branch") branch[word[2], word[3], word[4]] = word[6]
        if (word[1] == "message") message[word[2]] = word[3]
    }
}
($1, $3) in element {
    words = called(($1, $3, $5) in branch ? branch[$1, $3, $5] : element[$1, $3])
    if (match($6, /^[!?][0-9]+/) && substr($6, 2, RLENGTH - 1) in message) words = words (substr($6, 1, 1) == "!" ? ", sends " : ", receives ") called(message[substr($6, 2, RLENGTH - 1)])
    print $0 "  " words
    next
}
{ print }
