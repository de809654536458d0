 .bss X,1
 NOP
