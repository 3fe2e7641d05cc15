# shellcheck shell=bash
# Proves crates, builds programs and starts them. What was proved before and has not changed is not proved again, also after an interruption.
# A release has its programs in programs/, and nothing is proved there.
root=$(cd "$(dirname "$(readlink -f "${BASH_SOURCE[0]}")")/.." && pwd -P)

released() { [ -d "$root/programs" ]; }

needs_rt() {
    ! released || misused "a release has the programs, and not the sources that this works on"
    command -v rt >/dev/null || misused "rt, the command of the Rattle kit, is not on the path"
    [ -z "${kit:-}" ] || return 0
    kit=$(rt version)
    [ "$kit" = "$(cat "$root/KIT")" ] || echo "$0: this kit is '$kit', and the sources were proved with '$(cat "$root/KIT")' (the file KIT): a proof may fail with another one" >&2
}

# The named crates and all that they stand on, or every crate where none is named: a line each, with its CPU seconds as docs/cost.tsv has them.
crates_below() { # NAME...
    WANTED="$*" awk '
        function visit(n,    k, m, below) {
            if (n in seen || !(n in needs)) return
            seen[n] = 1
            m = split(needs[n], below, " ")
            for (k = 1; k <= m; k++) visit(below[k])
        }
        # words behind a name, as `staticlib`, say what it is built as
        FNR == NR { sub(/#.*/, ""); i = index($0, ":"); if (i) { split(substr($0, 1, i - 1), word, " "); n = word[1]; needs[n] = substr($0, i + 1); listed[++count] = n } next }
        { cost[$1] = $2 }
        END {
            m = split(ENVIRON["WANTED"], wanted, " ")
            for (k = 1; k <= m; k++) visit(wanted[k])
            for (k = 1; k <= count; k++) if (!m || listed[k] in seen) printf "%s %d\n", listed[k], listed[k] in cost ? cost[listed[k]] : 15
        }' "$root/crates.txt" "$root/docs/cost.tsv"
}

# How many crates are proved beside each other: one for each processor, as far as there are 3 GB of memory for each.
at_once() {
    awk -v processors="$(nproc)" '/^MemAvailable/ { n = int($2 / 3000000) } END { print n < 1 ? 1 : n < processors ? n : processors }' /proc/meminfo
}

clock() { # SECONDS
    if [ "$1" -lt 120 ]; then echo "$1 s"; else echo "$(($1 / 60)) min $(($1 % 60)) s"; fi
}

# How far it is, in a line; on a terminal it is always the same line. What is left is reckoned by what was done, before that by the processors.
progress() { # WORDS
    local so_far=$((SECONDS - began)) remain text
    remain=$((left / $(nproc)))
    [ "$spent" -eq 0 ] || remain=$((left * so_far / spent))
    text="$ended of ${#cost[@]} crates proved, $(clock "$so_far") so far, about $(clock "$remain") left${1:+; $1}"
    if [ -t 2 ]; then printf '\r\033[K%.*s' $(($(terminal_width) - 1)) "$text" >&2; else echo "$text" >&2; fi
}

# The crates that rt has begun and not reported yet; the last one is known by itself.
under_way() {
    local name names=''
    for name in "${!waiting[@]}"; do
        [ ! "$root/crates/$name/out" -nt "$room/began" ] || names="$names${names:+ and }$name"
    done
    [ ${#waiting[@]} -ne 1 ] || names=${!waiting[*]}
    echo "${names:+now }$names"
}

# One line of rt: that a crate ended, how much of it was proved now, or, with its status, that all did.
heard() { # LINE
    local name
    case $1 in
    '== '*)
        name=${1#== }
        [ -n "${waiting[$name]:-}" ] || return 0
        unset "waiting[$name]"
        ended=$((ended + 1)) left=$((left - cost[$name]))
        ;;
    # of a crate that did not change no module is checked again
    'crate '*': modules loaded='*' checked='[1-9]*)
        name=${1#crate } name=${name%%:*}
        [ -n "${cost[$name]:-}" ] || return 0
        spent=$((spent + cost[$name]))
        progress "last $name"
        ;;
    'ended '*)
        status=${1#ended }
        return 0
        ;;
    esac
    echo "$1" >>"$room/log"
}

# Runs rt in a folder and says on standard error how far it is, where something has to be proved.
watched() { # FOLDER WORDS-OF-RT...
    local folder=$1 part held='' idle=0
    shift
    while :; do
        part=
        if IFS= read -r -t 1 -u 3 part; then
            heard "$held$part"
            held='' idle=0
        elif [ $? -gt 128 ]; then
            held=$held$part idle=$((idle + 1))
            # crates that only have to be looked at are done sooner; a file gets its first line here, and then one for each crate
            if [ $idle -gt 1 ] && { [ -t 2 ] || { [ $idle -eq 2 ] && [ "$spent" -eq 0 ]; }; }; then progress "$(under_way)"; fi
        else
            break
        fi
    done 3< <(cd "$folder" && rt "$@" 2>&1; echo "ended $?")
}

# Proves a crate and what it stands on, or every crate where none is named; how many there are stays in $said.
prove() { # [NAME]
    local name seconds status=0 ended=0 spent=0 left=0 began=$SECONDS room
    local -A cost=() waiting=()
    while read -r name seconds; do
        cost[$name]=$seconds waiting[$name]=yes left=$((left + seconds))
    done < <(crates_below "$@")
    mkdir -p "$root/target" && room=$(mktemp -d "$root/target/progress.XXXXXX") || exit 2
    touch "$room/began" "$room/log"
    watched "$root${1:+/crates/$1}" all check --jobs "$(at_once)"
    [ ! -t 2 ] || printf '\r\033[K' >&2
    [ $spent -eq 0 ] || [ "$status" -ne 0 ] || echo "all ${#cost[@]} crates proved, $(clock $((SECONDS - began)))" >&2
    # shellcheck disable=SC2034
    said=$(grep ' crates ok$' "$room/log")
    [ "$status" -eq 0 ] || grep -v ': proved$\|^== \|^library \|^logic\|^statements \|^crate \|^axioms \|^rt: chose \|^checked ' "$room/log" >&2
    rm -rf "$room"
    return "$status"
}

# Whether the header has the version of the file VERSION; the pkg-config file is made from it.
version_agrees() {
    local major minor patch
    IFS=. read -r major minor patch <"$root/VERSION"
    [ "$(sed -n 's/^#define CV_VERSION_\(MAJOR\|MINOR\|PATCH\) //p' "$root/include/cuttingvale.h" | tr '\n' ' ')" = "$major $minor $patch " ] ||
        misused "include/cuttingvale.h has another version than the file VERSION, $(cat "$root/VERSION")"
}

# The library for pkg-config, with the folders of its header and of its archive.
pkg_config() { # INCLUDE LIBRARY
    cat <<END
Name: cuttingvale
Description: A process engine for tram junction controllers
Version: $(cat "$root/VERSION")
Cflags: -I$1
Libs: -L$2 -lcuttingvale
END
}

# Whether a file is older than the sources: what a program is run on, and the edits that must be refused, are none.
stale() { # FILE
    [ ! -e "$1" ] || [ -n "$(find "$root"/crates/*/{src,specs,proofs} "$root/crates.txt" -newer "$1" -type f 2>/dev/null | head -n 1)" ]
}

# Has rt build the program or the library of a crate that is proved, and copies it; what rt says is shown only where it fails.
built() { # NAME WORD FILE
    local log=$root/target/building.$1 made=$1
    mkdir -p "$(dirname "$3")" || exit 2
    # rt builds a program only to run it, here on no input
    (cd "$root/crates/$1" && rt "$2") </dev/null >"$log" 2>&1 || { cat "$log" >&2 && return 1; }
    rm "$log"
    [ "$2" = run ] || made=lib$1.a
    # the copy is there only whole
    cp "$root/crates/$1/out/$made" "$3.new" && mv "$3.new" "$3"
}

# Proves and builds a program, where that has not been done since the sources changed.
build() { # NAME
    ! released || return 0
    needs_rt
    stale "$root/target/bin/$1" || return 0
    { prove "$1" && built "$1" run "$root/target/bin/$1"; } || misused "$1 is not proved, so it is not run"
}

# Starts a program that was built, on standard input.
start() { # NAME WORDS...
    local name=$1 folder=$root/target/bin
    shift
    ! released || folder=$root/programs
    "$folder/$name" "$@"
}
