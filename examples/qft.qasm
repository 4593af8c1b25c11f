// Quantum Fourier transform on four qubits, of the state |1000>.
OPENQASM 2.0;
include "qelib1.inc";

qreg q[4];      // the state
qreg anc[1];    // unused but reset
creg c[4];
creg flag[1];

reset anc;
x q[0];
barrier q;

h q[0];
cu1(pi/2) q[1], q[0];
h q[1];
cu1(pi/4) q[2], q[0];
cu1(pi/2) q[2], q[1];
h q[2];
cu1(pi/8) q[3], q[0];
cu1(pi/4) q[3], q[1];
cu1(pi/2) q[3], q[2];
h q[3];

barrier q, anc;

// the bits in their usual order
swap q[0], q[3];
swap q[1], q[2];

barrier q, anc;
measure q -> c;
measure anc[0] -> flag[0];
