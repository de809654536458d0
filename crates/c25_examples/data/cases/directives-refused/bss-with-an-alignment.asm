 .bss X,1,0,1
