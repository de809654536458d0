ADD3    .macro  a,b,c           ; c = a + b
        LAC     a
        ADD     b
        SACL    c
        .endm
        ADD3    60h,61h,62h
        ADD3    *+,*+,*
        NOP
