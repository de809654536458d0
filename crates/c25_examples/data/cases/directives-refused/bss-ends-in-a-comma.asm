 .bss X,
