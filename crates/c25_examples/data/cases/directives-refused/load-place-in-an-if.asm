 .label L
 .if L
 .endif
