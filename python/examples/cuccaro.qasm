OPENQASM 3.0;
include "stdgates.inc";
gate majority a, b, c { cx c, b; cx c, a; ccx a, b, c; }
gate unmaj a, b, c { ccx a, b, c; cx c, a; cx a, b; }
qubit cin;
qubit[8] a;
qubit[8] b;
qubit cout;
majority cin, b[0], a[0];
for uint i in [0:6] { majority a[i], b[i + 1], a[i + 1]; }
cx a[7], cout;
for uint i in [6:-1:0] { unmaj a[i], b[i + 1], a[i + 1]; }
unmaj cin, b[0], a[0];
