P NOP
 .bss X,5,P
