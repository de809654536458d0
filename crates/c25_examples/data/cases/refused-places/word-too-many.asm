 .space 1048576
 NOP
