# shellcheck shell=bash
# What the scripts here say to people: a wrong use in one line, the numbers given back in the words of documents 01 and 02, and the place of a refusal.

# --version alone is the release; with a number behind it, of the commands that take one, it is the version of a state.
case $#:${1:-} in
1:--version)
    # shellcheck disable=SC2154
    echo "cuttingvale $(cat "$here/../VERSION")"
    exit 0
    ;;
esac

# One line on a wrong use, and its exit status.
misused() { # WORDS
    echo "$0: $1" >&2
    exit 2
}

# Takes the words of a script that works on one file or on standard input; the file is then in $input.
takes_a_file() { # WORDS...
    input=
    while [ $# -gt 0 ]; do
        case $1 in
        --help | -h)
            usage
            exit 0
            ;;
        -?*) misused "there is no option '$1'; $0 --help says what there is" ;;
        *)
            [ -z "$input" ] || misused "it takes one file, and was given '$input' and '$1'"
            readable "$1"
            input=$1
            ;;
        esac
        shift
    done
}

# The version that --version names.
takes_version() { # WORD
    case $1 in
    '' | *[!0-9]* | ??????*) misused "--version wants 10 or 20" ;;
    esac
    version=$1
}

# A model's text as the command that reads it: blanks stand for its newlines, so that every place stays.
as_command() { # MODEL
    printf 'read '
    tr '\n' ' ' <"$1"
    echo
}

readable() { # FILE
    [ -e "$1" ] || misused "there is no file '$1'"
    [ ! -d "$1" ] || misused "'$1' is a folder, and a file is wanted"
    [ -r "$1" ] || misused "the file '$1' cannot be read"
}

meaning() { # NUMBER
    case $1 in
    0) echo "accepted" ;;
    1) echo "text above 65,536 bytes" ;;
    2) echo "the token at this place (or the text's end) continues no text of the notation" ;;
    3) echo "a number is outside its range or a count above it" ;;
    4) echo "a model check is broken" ;;
    5) echo "the writer's buffer is shorter than the text" ;;
    6) echo "listing: no accepted step with that ordinal" ;;
    10) echo "the table breaks a limit or check, or the state doesn't fit the table and the limits" ;;
    11) echo "no such pool, instance, element, phase or branch" ;;
    12) echo "tokens or task counts don't permit the step" ;;
    13) echo "condition not true, or an undefined value in condition, template, assignment or message" ;;
    14) echo "values don't match, or were given to a step that receives nothing" ;;
    15) echo "no equal message queued" ;;
    16) echo "startRcv: the pool's limit is reached" ;;
    17) echo "the queue sent or posted to holds 64" ;;
    18) echo "an edge or task count, after the taking, would pass 255" ;;
    19) echo "post: name above 15 or more than 4 values" ;;
    20) echo "not the XML named here or nested deeper" ;;
    21)
        echo "an element we don't run or, behind an event gateway, no catch event, a condition on another flow or not in our notation, a gateway that doesn't\
 either split or join, another node without just its kind's entries and exits, or a sender or receiver without exactly one message flow"
        ;;
    22) echo "a batch of more than 64 items" ;;
    23) echo "not such a log or longer" ;;
    24) echo "event at fault" ;;
    25) echo "another version than 10 or 20, asked for or in a state" ;;
    26) echo "the number of records isn't the number of pools, or they don't agree with the state at entry" ;;
    27) echo "the text breaks off before the trace opens, is no such log at an earlier place than its end, or is longer" ;;
    28) echo "no edge or element number free" ;;
    29) echo "the pool is not nested" ;;
    *) echo "a number that these words do not have" ;;
    esac
}

model_check() { # CHECK
    case $1 in
    1) echo "pool numbers differ" ;;
    2) echo "each pool has exactly one start or startRcv" ;;
    3) echo "in a miPool the start is startRcv" ;;
    4) echo "each edge stands exactly once as an exit and exactly once as an entry; the first edge of start is an entry only" ;;
    5) echo "task numbers differ within a pool" ;;
    6) echo "a message name is received in at most one pool and not sent there" ;;
    7) echo "there is at most one default in an xorSplit" ;;
    8) echo "no field is bound twice in one template" ;;
    esac
}

ranges="pools 1 to 9, at most 4; elements, at most 32 a pool; edges 1 to 48; tasks 1 to 16; messages 0 to 15; n 1 to 16; lists and branches 2 to 8; \
fields d0 to d15; values 0 to 4,294,967,295; at most 4 items in a message and 4 assignments"

# What a look at a text that was refused finds: a place, and what is said of it; nothing where it finds nothing, as in a text that is no notation at all.
looked_at() { # FILE AWK-WORDS...
    local file=$1
    shift
    tr '\0' '\002' <"$file" | LC_ALL=C awk "$@" -f "$root/bin/notation.awk"
}

# A refusal in words. The number and what stands beside it are as the program printed them; the text is in FILE, and NAME is what people call it.
explain() { # NUMBER BESIDE FILE NAME
    local place said
    case $1 in
    2 | 3)
        read -r place said < <(looked_at "$3" -v "number=$1" -v "place=$2")
        at_place "$2" "$3" "$4" "${said:-$(meaning "$1") ($1)}"
        unseen "$2" "$3"
        ;;
    4)
        read -r place said < <(looked_at "$3" -v "check=$2")
        if [ -n "$said" ]; then
            at_place "$place" "$3" "$4" "$said (4)"
            echo "check $2 wants that $(model_check "$2")"
        else
            echo "$4: $(meaning 4) (4): check $2 wants that $(model_check "$2")"
        fi
        ;;
    28) explain_room "$4" "$(tr '\0' '?' <"$3" | LC_ALL=C awk -f "$root/bin/room.awk")" ;;
    29) echo "$4, pool $2: $(meaning 29) (29)" ;;
    *) echo "$4: $(meaning "$1") ($1)" ;;
    esac
    [ "$1" != 3 ] || echo "the ranges: $ranges"
}

# A pool without room in words: its number, how many elements it has, how many of them are endSnds, and how many edges it uses.
explain_room() { # NAME 'POOL ELEMENTS ENDS EDGES'
    local pool elements ends edges
    read -r pool elements ends edges <<<"$2"
    if [ -z "$pool" ]; then
        echo "$1: $(meaning 28) (28)"
    elif [ $((elements + ends)) -gt 32 ]; then
        echo "$1: no element number free in pool $pool (28): with an end for each endSnd it has $elements and $ends elements, and at most 32 are allowed"
    else
        echo "$1: no edge free in pool $pool (28): with one for each endSnd it has $edges and $ends edges, and there are 48"
    fi
}

# A refused log in words: the place of 23, or the event of 24, its line and what is said of it.
# shellcheck disable=SC2154
explain_log() { # NUMBER BESIDE OWN FILE NAME
    case $1 in
    23)
        if [ $(($(wc -c <"$4"))) -gt 65536 ]; then
            echo "$5: log above 65,536 bytes (23)"
        else
            # a carriage return is a line end here, and nothing to be shown
            tr '\r' ' ' <"$4" >"$4.plain"
            at_place "$2" "$4.plain" "$5" "not such a log: what stands here continues none (23)"
            quoted "$2" "$4"
        fi
        ;;
    24) echo "$5, event $2 (from 0), '$(tr '\0' '?' <"$4" | LC_ALL=C awk -v event="$2" -f "$root/bin/events.awk")': $(fault "$3")" ;;
    esac
}

# A log that cannot be repaired, in words: the place is the one that 23 has, under any model.
explain_lost() { # FILE NAME
    local model='pool(1,start(1,2)|end(2))' place
    place=$({ echo ${#model} && printf %s "$model" && cat "$1"; } | start tool judge)
    place=${place#refused 23 }
    if [ $(($(wc -c <"$1"))) -gt 65536 ]; then
        echo "$2: log above 65,536 bytes (27)"
    elif [ "$place" -eq $(($(wc -c <"$1"))) ]; then
        at_place "$place" "$1" "$2" "the log breaks off before its trace opens (27)"
    else
        tr '\r' ' ' <"$1" >"$1.plain"
        at_place "$place" "$1.plain" "$2" "not such a log: what stands here continues none (27)"
        quoted "$place" "$1"
    fi
}

# What is amiss with the value whose opening quote stands at a place of a log.
quoted() { # PLACE FILE
    case $(tail -c "+$(($1 + 1))" "$2" | head -c 13 | tr '\0' '?') in
    [\"\']concept:name) echo "the event has a concept:name already" ;;
    [\"\']*) echo "a line is five numbers and '-', '!3:7' or '?3:7', with one blank between, or 'post 3:7'" ;;
    esac
}

# What is said of an event at fault, by its own number.
fault() { # NUMBER
    if [ "$1" -eq 0 ]; then
        echo "accepted, but what the line says was sent or consumed is not true (24 with 0)"
    else
        echo "$(meaning "$1") (24 with $1)"
    fi
}

# A refusal with a place: line and column, the words, and the text around it with a caret.
at_place() { # PLACE FILE NAME WORDS
    local place=$1 file=$2 end before after
    # a column is a character, also where the user's own locale knows only bytes
    [ -n "$( (LC_ALL=C.UTF-8) 2>&1)" ] || local LC_ALL=C.UTF-8
    end=$(($(wc -c <"$file")))
    # the text's end is shown behind its last token, not behind the blanks that follow it
    [ "$place" -lt "$end" ] || place=$(printf %s "$(tr '\0\t\n' '?  ' <"$file" | LC_ALL=C sed 's/ *$//')" | wc -c)
    before=$({ head -c "$place" "$file" && echo .; } | tr '\0' '?' | tail -n 1)
    before=${before%.}
    after=$(tail -c "+$((place + 1))" "$file" | head -n 1 | tr '\0' '?')
    echo "$3, line $(($(head -c "$place" "$file" | wc -l) + 1)), column $((${#before} + 1)): $4"
    if [ "$1" -lt "$end" ]; then
        around "$before" "$after"
    elif [ "$place" -gt 0 ]; then
        around "$before" ''
        echo "the text ends here"
    else
        echo "the text is empty"
    fi
}

# A line of text with a caret below a place of it, cut to the width of the terminal.
around() { # BEFORE AFTER
    local before=$1 after=$2 room left
    room=$(($(terminal_width) - 5))
    left=$((room * 2 / 3))
    [ ${#before} -le $left ] || before="...${before: -$((left - 3))}"
    left=$((room - ${#before}))
    [ ${#after} -le $left ] || after="${after:0:$((left - 3))}..."
    before=${before//$'\t'/ } after=${after//$'\t'/ }
    printf '    %s%s\n    %*s^\n' "${before//[[:cntrl:]]/?}" "${after//[[:cntrl:]]/?}" "${#before}" ''
}

terminal_width() {
    local width=${COLUMNS:-}
    [ -n "$width" ] || { [ -t 2 ] && width=$(stty size <&2 2>/dev/null | cut -d' ' -f2); }
    case $width in '' | *[!0-9]*) width=80 ;; esac
    [ "$width" -ge 40 ] || width=80
    echo "$width"
}

# What stands at a place of the notation's text, where it cannot be seen.
unseen() { # PLACE FILE
    local byte
    byte=$(tail -c "+$(($1 + 1))" "$2" | head -c 1 | od -An -tu1 | tr -d ' ')
    case $byte in
    13) echo "here stands byte 13, a carriage return: a line ends with a newline alone" ;;
    239) echo "here stands byte 239, as of a byte order mark: the text is plain ASCII" ;;
    [0-9] | [12][0-9] | 3[01] | 12[7-9] | 1[3-9][0-9] | 2[0-9][0-9]) echo "here stands byte $byte: the text is plain ASCII, with blanks, tabs and newlines" ;;
    esac
}

# Where a pool that is not nested offends: the element at a place of the pool with that number, as the model behind the answer's first line has it, and what would do.
explain_nesting() { # POOL PLACE ANSWER NAME
    tail -n +2 "$3" | LC_ALL=C awk -v pool="$1" -v place="$2" -v name="$4" '
        function hint(kind) {
            if (kind == "terminate") return "a nested pool ends by its one end: there is no terminate in it"
            if (kind == "end") return "a nested pool has one end: let the branches meet in a join before it"
            if (kind == "andSplit") return "its branches do not all run into one andJoin that has just them as entries"
            if (kind == "xorSplit" || kind == "eventBased") return "its branches do not all run into one xorJoin that has just them as entries"
            if (kind == "andJoin" || kind == "xorJoin") return "it closes no split: its entries are not just the branches of one split of its kind, or they come round a loop"
            return "it does not stand on the way from the start to the end"
        }
        {
            depth = 0; from = 1; element = -1; number = ""
            for (i = 1; i <= length($0); i++) {
                c = substr($0, i, 1)
                if (c == "(") { depth++; if (depth == 1) { rest = substr($0, i + 1); number = rest + 0; element = -1; from = 0 } }
                if (depth == 1 && c == "," && !from && element < 0) { element = 0; from = i + 1 }
                else if (depth == 1 && (c == "|" || c == "," || c == ")") && element >= 0) {
                    if (number == pool && element == place) { what = substr($0, from, i - from); exit }
                    element++; from = i + 1
                }
                if (c == ")") depth--
            }
        }
        END {
            kind = what
            sub(/\(.*/, "", kind)
            printf "%s, pool %s: not nested (29)", name, pool
            if (what != "") printf ", at element %s, %s: %s", place, what, hint(kind)
            print ""
        }'
}
