#!/bin/sh
# How long a circuit's text takes to be read, beside its tokens alone: of gates, of angles, of long
# angles, of gates on whole registers, of barriers of many cells, registers and names, and of comments.
# It checks nothing, and no test runs it.
#
#   bench/read_speed.sh
#
# The programs are crates/read_speed and crates/lex_speed, which `rt run` in their folders proves and builds.
set -u
here=$(cd "$(dirname "$0")" && pwd) || exit 1
reader=$here/../crates/read_speed/out/read_speed
lexer=$here/../crates/lex_speed/out/lex_speed
size=16777216
rounds=5

for program in "$reader" "$lexer"; do
    if ! [ -x "$program" ]; then
        echo "a program is not built yet: call rt run in crates/read_speed and crates/lex_speed once" >&2
        exit 1
    fi
done
text=$(mktemp "${TMPDIR:-/tmp}/read-speed.XXXXXX") || exit 1
trap 'rm -f "$text"' EXIT

# A text of the kind, of at most $size bytes.
circuit() {
    awk -v kind="$1" -v size="$size" '
    function out(s) { printf "%s", s; total += length(s) }
    function head(n) { out("OPENQASM 2.0;\ninclude \"qelib1.inc\";\nqreg q[" n "];\n") }
    BEGIN {
        if (kind == "gates") {
            head(256)
            for (n = 0; n < 65536; n++) out((n % 2 ? "h q[" n % 256 "];\n" : "cx q[" n % 256 "],q[" (n + 1) % 256 "];\n"))
        }
        if (kind == "angles") {
            head(256)
            for (n = 0; n < 65536; n++) out("cu3(-3*pi/" n + 1 ",0.25,sin(1.5e-3)^2) q[" n % 256 "],q[" (n + 1) % 256 "];\n")
        }
        if (kind == "long angles") {
            head(256)
            angle = "1"
            while (length(angle) < 226) angle = angle "+1"
            for (n = 0; n < 65536; n++) out("rz(" angle ") q[" n % 256 "];\n")
        }
        if (kind == "gates and spaces") {
            head(256)
            spaces = sprintf("%230s", "")
            for (n = 0; n < 65536; n++) out("h" spaces "q[" n % 256 "];\n")
        }
        if (kind == "broadcasts") {
            head(256)
            for (n = 0; n < 256; n++) out("rz(pi/" n + 1 ") q;\n")
            while (total < size - 64) out("include \"qelib1.inc\";\n")
        }
        if (kind == "too many broadcasts") {
            head(256)
            while (total < size - 8) out("h q;\n")
        }
        if (kind == "barriers of cells") {
            head(256)
            out("barrier q[0]")
            for (n = 0; total < size - 16; n++) out(",q[" n % 256 "]")
            out(";\n")
        }
        if (kind == "barriers of registers") {
            head(255)
            out("qreg r[1];\nbarrier q")
            while (total < size - 8) out(",q")
            out(";\n")
        }
        if (kind == "a million names") {
            out("OPENQASM 2.0;\n")
            for (n = 0; n < 256; n++) out("qreg register_" n "[1];\n")
            out("barrier register_0")
            for (n = 0; total < size - 32; n++) out(",register_" (n * 7 % 256))
            out(";\n")
        }
        if (kind == "short names") {
            out("OPENQASM 2.0;\n")
            for (n = 0; n < 256; n++) name[n] = sprintf("%c%c", 97 + n / 26, 97 + n % 26)
            for (n = 0; n < 256; n++) out("qreg " name[n] (name[n] == "if" ? "_" : "") "[1];\n")
            out("barrier aa")
            for (n = 0; total < size - 8; n++) out("," name[n * 7 % 200])
            out(";\n")
        }
        if (kind == "long names") {
            out("OPENQASM 2.0;\n")
            same = "register"
            while (length(same) < 2000) same = same "_register"
            for (n = 0; n < 256; n++) out("qreg " same n "[1];\n")
            out("barrier " same 0)
            for (n = 0; total < size - 4096; n++) out("," same (n * 7 % 256))
            out(";\n")
        }
        if (kind == "comments") {
            head(256)
            for (n = 0; total < size - 64; n++) out("// a line of this text that is skipped\n" (n % 64 ? "" : "h q[" n % 256 "];\n"))
        }
    }' | head -c "$size"
}

# The least wall time of some rounds, in microseconds, and what the program tells.
measure() {
    least=
    round=0
    while [ "$round" -lt "$rounds" ]; do
        start=$(date +%s%N)
        told=$("$1" <"$text") || exit 1
        took=$((($(date +%s%N) - start) / 1000))
        if [ -z "$least" ] || [ "$took" -lt "$least" ]; then least=$took; fi
        round=$((round + 1))
    done
}

for kind in "gates" "gates and spaces" "angles" "long angles" "broadcasts" "too many broadcasts" "barriers of cells" "barriers of registers" "a million names" "short names" "long names" "comments"; do
    circuit "$kind" >"$text"
    measure "$lexer"
    tokens=$told
    alone=$least
    measure "$reader"
    echo "$kind: $(wc -c <"$text") bytes, $tokens tokens, $told: lex $((alone / 1000)) ms, read $((least / 1000)) ms, ratio $((least * 100 / alone))/100"
done
