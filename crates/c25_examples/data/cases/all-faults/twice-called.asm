TWO     .macro  n
        FOO
        LACK    n
        .endm
        TWO     1
        TWO     2
