 .global E,A
 .ref F,E
 .def B
 .mmregs
A .word E,F-1
B .set 5
 .mmregs
