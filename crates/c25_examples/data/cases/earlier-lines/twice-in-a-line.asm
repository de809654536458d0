 NOP
X .bss X,1
