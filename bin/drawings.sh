# shellcheck shell=bash disable=SC2154
# Drawings for the scripts that have words.sh, proving.sh and a folder $room of their own: whether a file is one, its text by the proved program, and a refusal in words.

# Whether a text is meant as XML: its first byte that is no blank, behind a byte order mark, is `<`.
is_drawing() { # FILE
    [ "$(head -c 65537 "$1" | LC_ALL=C tr -d '\357\273\277 \t\r\n\0' | head -c 1)" = '<' ]
}

# The file that a drawing stands in: the one that is named, or a copy of what is read, which ends where it is more than the longest drawing.
keep_drawing() { # FILE
    drawing=$1
    [ ! -f "$drawing" ] || return 0
    [ -n "$1" ] || [ ! -t 0 ] || echo "$0: the drawing is read from the terminal, up to Ctrl-D" >&2
    head -c 131072 "${1:-/dev/stdin}" >"$room/drawing" || exit 2
    drawing=$room/drawing
}

# What a command of the proved program says of the drawing in FILE, put into ANSWER; a refusal is printed and said in words, and the status is 1. NAME is what people call the file.
ask_of_drawing() { # COMMAND FILE NAME ANSWER
    local word number beside
    build tool
    start tool "$1" <"$2" >"$4" || exit 2
    read -r word number beside <"$4"
    [ "$word" = refused ] || return 0
    cat "$4"
    explain_drawing "$number" "$beside" "$2" "$3" >&2
    return 1
}

# What a planner may not have meant in a drawing that is read: a line each, on standard error.
tell_notes() { # FILE NAME
    local place words
    tr '\0\n\t\r\001' '?   ?' <"$1" | LC_ALL=C awk -f "$root/bin/tags.awk" -f "$root/bin/notes.awk" | while IFS=$'\t' read -r place words; do
        echo "$2, line $(($(head -c "$place" "$1" | wc -l) + 1)): note: $words"
    done >&2
}

# The text of the drawing in FILE, and its map.
read_drawing() { # FILE NAME TEXT
    ask_of_drawing drawing "$@" && tell_notes "$1" "$2"
}

map_drawing() { # FILE NAME MAP
    ask_of_drawing map "$@"
}

explain_drawing() { # NUMBER BESIDE FILE NAME
    case $1 in
    1) echo "$4: drawing above 65,536 bytes (1)" ;;
    3 | 20)
        # a carriage return is a line end here, and nothing to be shown
        tr '\r' ' ' <"$3" >"$room/plain"
        at_place "$2" "$room/plain" "$4" "$(meaning "$1") ($1)$(standing_in "$2" "$room/plain")"
        ;;
    4 | 21 | 28) explain_fault "$1" "$3" "$4" ;;
    *) echo "$4: $(meaning "$1") ($1)" ;;
    esac
    [ "$1" != 3 ] || echo "the ranges: $ranges"
}

# The element in whose tag, or in whose text right behind it, a place stands, with its id, where that can be told.
standing_in() { # PLACE FILE
    tr '\0\n\t' '?  ' <"$2" | LC_ALL=C awk -v place="$1" '
        place < length($0) {
            for (at = place + 1; at > 0; at--) if (substr($0, at, 2) ~ /^<[A-Za-z_\200-\377\/]/) break
            tag = substr($0, at + 1)
            sub(/>.*/, "", tag)
            if (!at || tag ~ /^\// || tag ~ /\/$/ && at + length(tag) < place) exit
            name = tag
            sub(/[ \/].*/, "", name)
            if (!match(tag, / id *= *("[^"]*"|\047[^\047]*\047)/)) { print ", at the element " name; exit }
            id = substr(tag, RSTART, RLENGTH)
            gsub(/^[^"\047]*.|.$/, "", id)
            print ", at the element " name " with id " id
        }'
}

fault_words() { # NUMBER RULE
    case $1 in
    4) echo "$(meaning 4) (4): check $2" ;;
    21) echo "what is drawn is not run (21)" ;;
    *) echo "$(meaning "$1") ($1)" ;;
    esac
}

# A drawing that is refused with 4, 21 or 28: the place and the rule are the proved program's, the words beside them tell what would do.
explain_fault() { # NUMBER FILE NAME
    local number rule place
    read -r number rule place < <(start tool diagnose <"$2")
    # a carriage return is a line end here, and nothing to be shown
    tr '\r' ' ' <"$2" >"$room/plain"
    at_place "$place" "$room/plain" "$3" "$(fault_words "$1" "$rule")"
    tr '\0\n\t\r\001' '?   ?' <"$2" | LC_ALL=C awk -v number="$number" -v rule="$rule" -v place="$place" -f "$root/bin/tags.awk" -f "$root/bin/faults.awk"
}
