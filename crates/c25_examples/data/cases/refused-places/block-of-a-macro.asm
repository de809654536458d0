DELAY .macro name,n
 .bss name,n,1
 .endm
 DELAY LINE,200
