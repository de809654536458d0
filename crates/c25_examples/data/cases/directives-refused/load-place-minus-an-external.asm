 .ref E
 .label L
 .word L-E
