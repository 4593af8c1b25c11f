#!/bin/sh
# How much processor time the commands take on circuits of 65,536 gates and on a program of more than two million
# operations, beside a count of words of what they read and write, and what memory. It checks nothing, and no test
# runs it.
#
#   bench/command_speed.sh
#
# The program is ./qccd, which has to be built.
set -u
here=$(cd "$(dirname "$0")" && pwd) || exit 1
program=$here/../crates/qccd/out/qccd

if ! [ -x "$program" ]; then
    echo "the program is not built yet: call ./qccd once" >&2
    exit 1
fi
# What ./qccd asks of the C library. It changes nothing for a count of words, which takes little memory.
large_pages=$(sed -n 's/^large_pages=//p' "$here/../qccd")
export GLIBC_TUNABLES="$large_pages"
folder=$(mktemp -d "${TMPDIR:-/tmp}/command-speed.XXXXXX") || exit 1
trap 'rm -rf "$folder"' EXIT

. "$here/circuits.sh"

# Seconds of processor time, the mean of some rounds, and the most memory in KiB.
measure() {
    /usr/bin/time -f "%U %S %M" -o "$folder/took" sh -c '
        left=$1
        out=$2
        shift 2
        while [ "$left" -gt 0 ]; do
            "$@" >"$out"
            left=$((left - 1))
        done
    ' measure "$rounds" "$folder/out" "$@" 2>"$folder/err"
    awk -v rounds="$rounds" '{ printf "%.4f %d", ($1 + $2) / rounds, $3 }' "$folder/took"
}

row() {
    name=$1
    machine=$2
    set -- $(measure "$program" run "$machine" "$folder/circuit")
    mv "$folder/out" "$folder/report"
    ops=$(awk '/^ops / { print $2; exit }' "$folder/report")
    set -- "$1" "$2" $(measure wc "$folder/report")
    words=$3
    awk -v name="$name" -v ops="$ops" -v run="$1" -v memory="$2" -v words="$3" 'BEGIN {
        printf "%s: %d operations, run %.4f s, %.2f of wc (%.4f s), %d MB, %d bytes and %d ns an operation\n",
            name, ops, run, words ? run / words : 0, words, memory / 1024, ops ? memory * 1024 / ops : 0, ops ? run * 1e9 / ops : 0
    }'
}

# The same program as a text: written, run, and compared with the circuit. Each beside a count of words: of what
# is written, of the text and the report, of what is read.
compiled() {
    set -- $(measure "$program" compile "$1" "$folder/circuit")
    mv "$folder/out" "$folder/program"
    took=$1
    set -- $(measure wc "$folder/program")
    awk -v took="$took" -v words="$1" 'BEGIN { printf "    compile %.4f s, %.2f of wc\n", took, words ? took / words : 0 }'
}

executed() {
    set -- $(measure "$program" exec "$1" "$folder/program")
    cmp -s "$folder/out" "$folder/report" || echo "    exec wrote another report" >&2
    took=$1
    memory=$2
    set -- $(measure wc "$folder/program" "$folder/report")
    awk -v took="$took" -v words="$1" -v memory="$memory" 'BEGIN { printf "    exec %.4f s, %.2f of wc, %d MB\n", took, words ? took / words : 0, memory / 1024 }'
}

checked() {
    set -- $(measure "$program" check "$1" "$folder/circuit" "$folder/program")
    took=$1
    set -- $(measure wc "$folder/circuit" "$folder/program")
    awk -v took="$took" -v words="$1" 'BEGIN { printf "    check %.4f s, %.2f of wc\n", took, words ? took / words : 0 }'
}

# The same from the number: no text of a circuit, and a summary in place of the report.
rehearsed() {
    set -- $(measure "$program" rehearse 7 "$1" 65536 "$2")
    awk -v took="$1" -v words="$words" 'BEGIN { printf "    rehearse %.4f s, %.2f of wc\n", took, words ? took / words : 0 }'
}

all_of() {
    row "$1" "$2"
    compiled "$2"
    executed "$2"
    checked "$2"
}

rounds=20
circuit 32 >"$folder/circuit"
all_of "@single:32, 32 qubits" @single:32
rehearsed 32 @single:32
registers >"$folder/circuit"
all_of "@single:32, 32 qubits, gates on whole registers" @single:32
turns >"$folder/circuit"
all_of "@single:32, 32 qubits, gates with angles" @single:32
rounds=3
circuit 95 >"$folder/circuit"
all_of "@L6:16, 95 qubits" @L6:16
rehearsed 95 @L6:16
circuit 64 >"$folder/circuit"
all_of "@G2x3:16, 64 qubits" @G2x3:16
rehearsed 64 @G2x3:16
circuit 95 >"$folder/circuit"
all_of "@G2x3:16, 95 qubits" @G2x3:16
rehearsed 95 @G2x3:16
line >"$folder/machine"
far 8000 >"$folder/circuit"
all_of "a line of 32 traps of 2, 33 qubits" "$folder/machine"
