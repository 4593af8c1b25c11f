OPENQASM 2.0;
include "qelib1.inc";
qreg q[2];
// a gate on one qubit twice
cx q[0], q[0];
