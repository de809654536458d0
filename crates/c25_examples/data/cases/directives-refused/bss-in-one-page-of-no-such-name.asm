 .bss X,1,Q
