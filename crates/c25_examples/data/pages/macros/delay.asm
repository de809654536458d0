PAUSE   .macro  n               ; without n: one NOP
        .if     n+0
        RPTK    n-1
        .endif
        NOP
        .endm
STORE   .macro  to,shift
        .if     shift+0 = 0
        SACL    to
        .mexit
        .endif
        SACL    to,shift
        .endm
        PAUSE
        PAUSE   8
        STORE   60h
        STORE   61h,2
