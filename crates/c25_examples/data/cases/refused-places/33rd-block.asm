 .if 1
 .if 1
 .if 1
 .if 1
 .if 1
 .if 1
 .if 1
 .if 1
 .if 1
 .if 1
 .if 1
 .if 1
 .if 1
 .if 1
 .if 1
 .if 1
 .if 1
 .if 1
 .if 1
 .if 1
 .if 1
 .if 1
 .if 1
 .if 1
 .if 1
 .if 1
 .if 1
 .if 1
 .if 1
 .if 1
 .if 1
 .if 1
 .loop 2
 .endloop
 .endif
 .endif
 .endif
 .endif
 .endif
 .endif
 .endif
 .endif
 .endif
 .endif
 .endif
 .endif
 .endif
 .endif
 .endif
 .endif
 .endif
 .endif
 .endif
 .endif
 .endif
 .endif
 .endif
 .endif
 .endif
 .endif
 .endif
 .endif
 .endif
 .endif
 .endif
 .endif
