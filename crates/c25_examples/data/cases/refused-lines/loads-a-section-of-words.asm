 .bss X,1
 .sect ".bss"
