# shellcheck shell=sh
# Instructions of x86-64, counted the same on both kinds of machine: natively by valgrind's callgrind, elsewhere under an emulator by the plugin bench/counter.c.
# Who reads this file has set root, and says refuse WORDS where something is missing.
if [ "$(uname -m)" = x86_64 ]; then
    cc=gcc packages="gcc libc6-dev" native=yes
else
    cc=x86_64-linux-gnu-gcc packages="gcc gcc-x86-64-linux-gnu libc6-dev-amd64-cross" native=
fi

compiler_needed() {
    command -v "$cc" >/dev/null && echo '#include <stdio.h>' | "$cc" -E - >/dev/null 2>&1 || refuse "$cc or the C library's headers are not there; on Debian: apt-get install $packages"
}

# The emulator and the plugin in EMULATOR and PLUGIN.
plugin_needed() { # ROOM
    command -v gcc >/dev/null || refuse "gcc is not there; on Debian: apt-get install gcc libc6-dev"
    echo 'int main(void) { return 0; }' >"$1/nothing.c"
    "$cc" -static -o "$1/nothing" "$1/nothing.c"
    if EMULATOR=$(command -v qemu-x86_64); then
        for version in 1 2; do
            PLUGIN=$1/counter-$version.so
            gcc -O2 -Wall -Wextra -shared -fPIC -DVERSION=$version -o "$PLUGIN" "$root/bench/counter.c"
            if "$EMULATOR" -plugin "$PLUGIN,out=$1/nothing.counts" "$1/nothing" >/dev/null 2>&1 && [ -f "$1/nothing.counts" ]; then return; fi
        done
    fi
    refuse "there is no emulator here that takes plugins, and so none that counts instructions; on Debian: apt-get install qemu-user"
}

counter_needed() { # ROOM
    if [ -n "$native" ]; then
        command -v valgrind >/dev/null && echo '#include <valgrind/callgrind.h>' | gcc -E - >/dev/null 2>&1 || refuse "valgrind is not there; on Debian: apt-get install valgrind"
    else
        plugin_needed "$1"
    fi
}

# Runs a program that uses bench/count.h: a line for each count in FILE, its label, a tab and the instructions. FILE.N are callgrind's own, one a label, where it counted.
counted() { # FILE PROGRAM WORDS...
    file=$1
    shift
    # a repeated instruction is counted as often as it repeats: the C library is to copy and clear without one
    tunables=glibc.cpu.x86_rep_stosb_threshold=10000000:glibc.cpu.x86_rep_movsb_threshold=10000000
    rm -f "$file" "$file".[0-9]*
    if [ -n "$native" ]; then
        GLIBC_TUNABLES=$tunables valgrind -q --tool=callgrind --collect-atstart=no --compress-strings=no --callgrind-out-file="$file" "$@" >"$file.labels"
        # callgrind writes a file for each label, numbered, which has its total
        for number in $(ls "$(dirname "$file")" | sed -n "s/^$(basename "$file")\.\([0-9]*\)$/\1/p" | sort -n); do
            sed -n 's/^totals: //p' "$file.$number"
        done >"$file.counts"
    else
        "$EMULATOR" -E "GLIBC_TUNABLES=$tunables" -plugin "$PLUGIN,out=$file.counts" "$@" >"$file.labels"
    fi
    paste "$file.labels" "$file.counts" >"$file"
}
