 .space 512
L B L
 LACK 1
 RET
 .word 5
 NOP
 NOP
 BZ $+3
 RET
 NOP
 B L
 B L
