// Five pairs of qubits. On traps of two ions each pair fills one, so the last gate, between the first two pairs, needs
// room in the second trap: on @L6:2 each of the five traps hands an ion on to the next.
OPENQASM 2.0;
include "qelib1.inc";

qreg q[10];

cx q[0], q[1];
cx q[2], q[3];
cx q[4], q[5];
cx q[6], q[7];
cx q[8], q[9];
cx q[1], q[2];
