 .space 1048576
 .word 1
