# shellcheck shell=bash disable=SC2034,SC2154
# For the scripts that draw a model: the model as the engine writes it, the numbers of a drawing's nodes, and the program in Python that puts it all on paper.

needs_python() {
    python3 -c 'import sys; sys.exit(sys.version_info < (3, 9))' 2>/dev/null || misused "python3 is missing, or older than 3.9: it is in Debian's package python3"
}

# Where the page or picture goes: to the file behind -o, else to standard output.
output=
takes_output() { # FILE
    [ -n "$1" ] || misused "-o wants a file"
    [ ! -d "$1" ] || misused "'$1' is a folder, and a file is wanted"
    output=$1
}

# The layout that --layout names.
layout=
takes_layout() { # WORD
    [ "$1" = auto ] || misused "--layout wants auto"
    layout=auto
}

# Takes the file of a model: its text goes to $room/text as the engine writes it; a drawing stays in $room/drawing, and $room/map says which node has which number.
# A model that is refused prints what bin/run prints, and the status is 1.
reads_model() { # FILE
    local word number beside
    # one byte more than the longest: what is longer is refused for its length
    head -c 65537 "$1" >"$room/given" || exit 2
    if is_drawing "$room/given"; then
        read_drawing "$room/given" "$1" "$room/text" || return
        mv "$room/given" "$room/drawing"
        start tool map <"$room/drawing" >"$room/map" || exit 2
        return 0
    fi
    build console
    { as_command "$room/given" && echo write; } | start console >"$room/answer" || exit 2
    read -r word number beside <"$room/answer"
    if [ "$word" != ok ]; then
        head -n 1 "$room/answer"
        explain "$number" "$beside" "$room/given" "$1" >&2
        return 1
    fi
    tail -n +2 "$room/answer" >"$room/text"
}

# Runs a program of viewer/ on what reads_model left; what it makes goes to its place only when it is whole.
makes() { # NAME WORDS...
    local name=$1
    shift
    [ -z "$layout" ] || set -- --layout "$layout" "$@"
    [ ! -e "$room/drawing" ] || set -- --drawing "$room/drawing" --map "$room/map" "$@"
    python3 -B "$root/viewer/$name.py" "$@" "$room/text" >"$room/made" || return 2
    if [ -n "$output" ]; then cat "$room/made" >"$output" || return 2; else cat "$room/made"; fi
}

# A title from the name of a file, or of its folder where the file is called model.
title_of() { # FILE
    local name
    name=$(basename "$1")
    name=${name%.*}
    [ "$name" != model ] || name=$(basename "$(dirname "$(readlink -f "$1")")")
    name=${name//[-_]/ }
    echo "${name^}"
}

# Judges a log under the model in $room/text: $judged is 'lawful' or '24', the event at fault and its number, $status then 1, and $room/lines has the lines of
# its events. A log that is none is refused, and the status is 1.
judges_log() { # LOG
    local word number beside own
    build tool
    head -c 65537 "$1" >"$room/log" || exit 2
    { echo $(($(wc -c <"$room/text"))) && cat "$room/text" "$room/log"; } | start tool judge 20 >"$room/answer" || exit 2
    read -r word number beside own <"$room/answer"
    judged=lawful
    if [ "$word" = refused ]; then
        cat "$room/answer" >&2
        explain_log "$number" "$beside" "$own" "$room/log" "$1" >&2
        [ "$number" -eq 24 ] || return 1
        status=1 judged="24 $beside $own"
    fi
    tr '\0' '?' <"$room/log" | LC_ALL=C awk -v event=all -f "$root/bin/events.awk" >"$room/lines"
}
