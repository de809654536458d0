* No instruction stands where line 0 goes, at 2.
        B       GO
        .word   0
GO      LACK    1
        SACL    4
        EINT
        NOP
S       B       S
