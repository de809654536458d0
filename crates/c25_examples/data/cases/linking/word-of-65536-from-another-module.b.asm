 .ref A
 .word A
