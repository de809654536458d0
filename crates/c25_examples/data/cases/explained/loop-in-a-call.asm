LINES .macro n
 .if n
 .loop n
 B TABLE+n
 .endloop
 .endif
 .endm
TWICE .macro
 LINES 0
 LINES 1
 .mexit
 LINES 2
 .endm
 TWICE
