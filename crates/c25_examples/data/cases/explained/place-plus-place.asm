 NOP
 .word 1,$+$
