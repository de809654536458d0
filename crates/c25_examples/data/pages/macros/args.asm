TABLE   .macro  name,values
name    .word   values
        .endm
FIRST   .macro  a,b
        .word   a
        .endm
        TABLE   SINES,1,2,3     ; values is 1,2,3
        FIRST   "4,5",6         ; a is 4,5
