X .set 1
A NOP
A .bss X,1
