X .set 1
AR1 .bss X,1
