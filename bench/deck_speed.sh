#!/bin/sh
# How long it takes to claim, do and hand back an operation: one pass beside one thread that does the operations in
# order with no claims, and then several threads, each on traps of its own. It checks nothing, and no test runs it.
#
#   bench/deck_speed.sh
#
# The program is crates/rows_deck, which `rt run` in its folder proves and builds. Its 65,536 gates stand in four
# traps in turn, and there are sixteen decks, one after another. What it takes to make the cells or the decks, to
# start the threads and to close is measured alone and taken off.
set -u
here=$(cd "$(dirname "$0")" && pwd) || exit 1
program=$here/../crates/rows_deck/out/rows_deck
gates=16384
times=16
rounds=9

if ! [ -x "$program" ]; then
    echo "the program is not built yet: call rt run in crates/rows_deck once" >&2
    exit 1
fi

. "$here/least_time.sh"

# Tells what an operation takes: a name, then the line without and with the operations.
tell() {
    without=$(least_time "$program" "$2" "$rounds") || exit 1
    with=$(least_time "$program" "$3" "$rounds") || exit 1
    echo "  $1 $(((with - without) / (4 * gates * times))) ns an operation"
}
echo "least wall time of $rounds rounds, $((4 * gates * times)) operations:"
tell "in order, no deck" "order $gates 0 $times" "order $gates 1 $times"
tell "one pass         " "parts $gates 1 0 $times" "parts $gates 1 1 $times"
tell "two threads      " "parts $gates 2 0 $times" "parts $gates 2 1 $times"
tell "four threads     " "parts $gates 4 0 $times" "parts $gates 4 1 $times"
