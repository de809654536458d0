 .ref FAR
 .word FAR
