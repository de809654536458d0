 .ref Y
 .data
 .word 1
 .word Y+1
