T       .word   1,-1,70000,T
        .int    'A',$
        .byte   -1,255,'A'
        .string "ABC","D"
        .space  33
        NOP
