#!/bin/sh
# How long it takes to order a circuit of 65,536 gates on 256 qubits, the most of both. It checks nothing, and no
# test runs it.
#
#   bench/order_speed.sh
#
# The program is crates/order_speed, which `rt run` in its folder proves and builds. It makes the circuit and orders
# it as often as it is told, so that what a further time takes is the time of one order.
set -u
here=$(cd "$(dirname "$0")" && pwd) || exit 1
program=$here/../crates/order_speed/out/order_speed
times=50
rounds=5

if ! [ -x "$program" ]; then
    echo "the program is not built yet: call rt run in crates/order_speed once" >&2
    exit 1
fi

. "$here/least_time.sh"
none=$(least_time "$program" 0 "$rounds") || exit 1
many=$(least_time "$program" "$times" "$rounds") || exit 1
echo "least wall time of $rounds rounds, 65536 gates on 256 qubits:"
echo "  circuit made  $((none / 1000)) microseconds"
echo "  one order     $(((many - none) / times / 1000)) microseconds"
