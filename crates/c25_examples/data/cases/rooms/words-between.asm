 .bss A,60,1
 .bss P,10
 .bss B,60,1
 .bss C,100,1
