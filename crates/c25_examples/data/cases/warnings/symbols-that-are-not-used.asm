 .def D
A .set 1
B1 .set 2
D .set 3
N .set 2
 .loop N
 LACK B1
 .endloop
 .space 512
L NOP
