X .set 1
A .bss X,1
