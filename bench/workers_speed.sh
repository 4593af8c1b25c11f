#!/bin/sh
# How long `run` takes with 1, 2, 4 and 16 workers, and what `compile` of the same circuit takes, which runs nothing.
# Each is the least wall time of some rounds. It checks that all write the same, and no test runs it.
#
#   bench/workers_speed.sh [PROGRAM]
#
# The program is that of ./qccd, which has to be built, or the one that is named.
set -u
here=$(cd "$(dirname "$0")" && pwd) || exit 1
program=${1:-$here/../crates/qccd/out/qccd}
rounds=${ROUNDS:-5}

if ! [ -x "$program" ]; then
    echo "the program is not built yet: call ./qccd once" >&2
    exit 1
fi
# What ./qccd asks of the C library.
large_pages=$(sed -n 's/^large_pages=//p' "$here/../qccd")
export GLIBC_TUNABLES="$large_pages"
folder=$(mktemp -d "${TMPDIR:-/tmp}/workers-speed.XXXXXX") || exit 1
trap 'rm -rf "$folder"' EXIT

. "$here/circuits.sh"

# The least wall time of a command in milliseconds.
least() {
    best=
    round=0
    while [ "$round" -lt "$rounds" ]; do
        start=$(date +%s%N)
        "$program" "$@" >"$folder/out" || exit 1
        took=$((($(date +%s%N) - start) / 1000))
        if [ -z "$best" ] || [ "$took" -lt "$best" ]; then best=$took; fi
        round=$((round + 1))
    done
    awk -v best="$best" 'BEGIN { printf "%.1f", best / 1000 }'
}

row() {
    echo "$1: compile $(least compile "$2" "$folder/circuit") ms"
    for workers in 1 2 4 16; do
        echo "    $workers workers $(least run "$2" "$folder/circuit" --workers "$workers") ms"
        [ "$workers" != 1 ] || mv "$folder/out" "$folder/one"
        [ "$workers" = 1 ] || cmp "$folder/one" "$folder/out" || exit 1
    done
}

circuit 32 >"$folder/circuit"
row "@single:32, 32 qubits" @single:32
circuit 64 >"$folder/circuit"
row "@G2x3:16, 64 qubits" @G2x3:16
line >"$folder/machine"
far 2000 >"$folder/circuit"
row "a line of 32 traps of 2, 33 qubits" "$folder/machine"
