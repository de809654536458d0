 .bss M,1
 .bss PAD,127
 .bss TABLE,100
 .bss PAD2,28
 .bss MORE,1
V .usect "last",100
PAD3 .usect "last",28
 LAC M
 LAC TABLE
 LAC MORE
 LAC V
