 .label L
 .bss X,L
