        .asect  "vec",0
        .word   1
        .text
        .word   2
