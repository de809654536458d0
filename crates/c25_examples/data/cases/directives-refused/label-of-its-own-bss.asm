X .bss X,1
