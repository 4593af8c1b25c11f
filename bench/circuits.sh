# For the other scripts of this folder, which read it: circuits and a machine to measure with.

# The circuit of 65,536 items that `rehearse 7 QUBITS 65536` makes, as a text.
circuit() {
    awk -v qubits="$1" 'function draw(bound) {
        high = int(x / 65536); low = x % 65536
        x = (((high * 1103515245) % 32768) * 65536 + low * 1103515245 + 12345) % 2147483648
        return int(x / 65536) % bound
    }
    BEGIN {
        printf "OPENQASM 2.0;\ninclude \"qelib1.inc\";\nqreg q[%d];\n", qubits
        x = 7
        for (n = 0; n < 65536; n++) {
            kind = draw(3); a = draw(qubits)
            if (kind == 0) printf "h q[%d];\n", a
            if (kind == 1) printf "x q[%d];\n", a
            if (kind == 2) { b = draw(qubits - 1); if (b >= a) b++; printf "cx q[%d],q[%d];\n", a, b }
        }
    }'
}

# A line of 32 traps of two ions.
line() {
    awk 'BEGIN {
        for (t = 0; t < 32; t++) printf "[[trap]]\ncapacity = 2\n"
        for (t = 0; t < 31; t++) printf "[[segment]]\na = \"T%d.right\"\nb = \"T%d.left\"\n", t, t + 1
    }'
}

# Gates with an angle, as a Fourier transform has them.
turns() {
    awk 'BEGIN {
        printf "OPENQASM 2.0;\ninclude \"qelib1.inc\";\nqreg q[32];\n"
        for (n = 0; n < 65536; n++) printf "cp(pi/%d) q[%d],q[%d];\n", 2 ^ (n % 16 + 1), n % 32, (n + 1 + n % 31) % 32
    }'
}

# As many gates, each line one on the whole register.
registers() {
    awk 'BEGIN {
        printf "OPENQASM 2.0;\ninclude \"qelib1.inc\";\nqreg q[32];\n"
        for (n = 0; n < 2048; n++) printf "h q;\n"
    }'
}

# Gates that take one qubit to the far end of the line and back.
far() {
    awk -v turns="$1" 'BEGIN {
        printf "OPENQASM 2.0;\ninclude \"qelib1.inc\";\nqreg q[33];\nx q;\n"
        for (n = 0; n < turns; n++) printf "cx q[0],q[32];\ncx q[0],q[1];\n"
    }'
}
