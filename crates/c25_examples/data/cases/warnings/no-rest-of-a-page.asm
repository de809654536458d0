 .bss M,1
 .bss SHORT,126
 .bss LONG,129
 .bss WHOLE,128
 .bss TWO,1
 .bss REST,127
 .bss MORE,1
V .usect "last",100
LAST .usect "last",27
 LAC M
 LAC TWO
 LAC MORE
 LAC V
