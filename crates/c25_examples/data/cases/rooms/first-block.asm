 .bss A,100,1
