#!/bin/sh
# How processor time and memory grow with the size of a program: from some ten thousand operations to four million, on
# a line of 32 traps, for each program that is named (an older build beside the new one, say), or the one that ./qccd
# built. It checks nothing, and no test runs it.
#
#   bench/size_speed.sh [PROGRAM ..]
set -u
here=$(cd "$(dirname "$0")" && pwd) || exit 1
. "$here/circuits.sh"

[ "$#" -gt 0 ] || set -- "$here/../crates/qccd/out/qccd"
for program in "$@"; do
    if ! [ -x "$program" ]; then
        echo "no program at $program: call ./qccd once" >&2
        exit 1
    fi
done
# What ./qccd asks of the C library.
large_pages=$(sed -n 's/^large_pages=//p' "$here/../qccd")
export GLIBC_TUNABLES="$large_pages"
folder=$(mktemp -d "${TMPDIR:-/tmp}/size-speed.XXXXXX") || exit 1
trap 'rm -rf "$folder"' EXIT
rounds=5

# Seconds of processor time, the least of some rounds, and memory in KiB: measure WORDS of a command.
measure() {
    left=$rounds
    : >"$folder/took"
    while [ "$left" -gt 0 ]; do
        /usr/bin/time -a -f "%U %S %M" -o "$folder/took" "$@" >"$folder/out"
        left=$((left - 1))
    done
    awk 'NR == 1 || $1 + $2 < least { least = $1 + $2 } { memory = $3 } END { printf "%.3f %d", least, memory }' "$folder/took"
}

# A row: what a command takes, and what that is for each operation.
row() {
    name=$1
    shift
    set -- $(measure "$@")
    awk -v name="$name" -v ops="$ops" -v took="$1" -v memory="$2" 'BEGIN {
        printf "    %-8s %.3f s, %d MB: %d ns and %d bytes an operation\n",
            name, took, memory / 1024, took * 1e9 / ops, memory * 1024 / ops
    }'
}

line >"$folder/machine"
for program in "$@"; do
    echo "$program"
    for turns in 40 200 1000 4000 12500; do
        far "$turns" >"$folder/circuit"
        "$program" compile "$folder/machine" "$folder/circuit" >"$folder/program" || exit 1
        ops=$(awk '/^ops / { print $2; exit }' "$folder/program")
        echo "  $ops operations"
        row run "$program" run "$folder/machine" "$folder/circuit"
        row compile "$program" compile "$folder/machine" "$folder/circuit"
        row exec "$program" exec "$folder/machine" "$folder/program"
        row check "$program" check "$folder/machine" "$folder/circuit" "$folder/program"
    done
done
