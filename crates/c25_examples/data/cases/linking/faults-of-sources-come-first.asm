 .ref A
 .word A
 .sect "b"
 NOP
 .space -1
