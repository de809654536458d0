HALF .macro n
 .if n/0
 .endif
 .endm
 HALF 4
