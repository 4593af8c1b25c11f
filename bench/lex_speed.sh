#!/bin/sh
# How many bytes a second the lexer takes on a circuit of 16,777,216 bytes, the most, beside a plain
# count of words of the same bytes. It checks nothing, and no test runs it.
#
#   bench/lex_speed.sh
#
# The program is crates/lex_speed, which `rt run` in its folder proves and builds.
set -u
here=$(cd "$(dirname "$0")" && pwd) || exit 1
program=$here/../crates/lex_speed/out/lex_speed
size=16777216
rounds=5

if ! [ -x "$program" ]; then
    echo "the program is not built yet: call rt run in crates/lex_speed once" >&2
    exit 1
fi
text=$(mktemp "${TMPDIR:-/tmp}/lex-speed.XXXXXX") || exit 1
trap 'rm -f "$text"' EXIT

# Gates with and without angles, and comments, on cells that differ from line to line.
circuit() {
    awk 'BEGIN {
        print "OPENQASM 2.0;\ninclude \"qelib1.inc\";\nqreg q[32];"
        for (n = 0; ; n++) {
            a = n * 7 % 32
            b = (a + 1 + n * 5 % 31) % 32
            if (n % 4 == 0) printf "h q[%d];\n", a
            if (n % 4 == 1) printf "rz(pi/%d) q[%d]; // turn\n", n % 97 + 1, a
            if (n % 4 == 2) printf "cx q[%d],q[%d];\n", a, b
            if (n % 4 == 3) printf "u3(0.25,1.5e-3,-pi) q[%d];\n", b
        }
    }'
}
circuit 2>/dev/null | head -c "$size" >"$text"

# The least wall time of some rounds, and what it makes in bytes a second.
measure() {
    name=$1
    shift
    least=
    round=0
    while [ "$round" -lt "$rounds" ]; do
        start=$(date +%s%N)
        counted=$("$@" <"$text") || exit 1
        took=$(($(date +%s%N) - start))
        if [ -z "$least" ] || [ "$took" -lt "$least" ]; then least=$took; fi
        round=$((round + 1))
    done
    echo "$name: $counted, $((least / 1000000)) ms, $((size * 1000 / (least / 1000000) / 1000000)) million bytes a second"
}
echo "least wall time of $rounds rounds on $size bytes:"
measure "  tokens (lex_speed)" "$program"
measure "  words (wc -w)     " wc -w
