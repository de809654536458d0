 .if 1
 .if 1
 .if 1
 .if 1
 .if 1
 .if 1
 .if 1
 .if 1
 .if 1
 .if 1
 .if 1
 .if 1
 .if 1
 .if 1
 .if 1
 .if 1
 .if 1
 .if 1
 .if 1
 .if 1
 .if 1
 .if 1
 .if 1
 .if 1
 .if 1
 .if 1
 .if 1
 .if 1
 .if 1
 .if 1
 .if 1
 .if 1
 .if 1
 .endif
 .endif
 .endif
 .endif
 .endif
 .endif
 .endif
 .endif
 .endif
 .endif
 .endif
 .endif
 .endif
 .endif
 .endif
 .endif
 .endif
 .endif
 .endif
 .endif
 .endif
 .endif
 .endif
 .endif
 .endif
 .endif
 .endif
 .endif
 .endif
 .endif
 .endif
 .endif
 .endif
