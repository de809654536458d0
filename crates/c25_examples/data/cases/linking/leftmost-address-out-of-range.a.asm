 .ref A,B
 .word A,B
