OPENQASM 2.0;
include "qelib1.inc";
qreg flag[4];
x flag[0];
cx flag[0],flag[3];
x flag[2];
cx flag[3],flag[1];
cx flag[2],flag[1];
