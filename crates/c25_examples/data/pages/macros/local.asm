POWERS  .macro  count,value     ; value is left out
        .asg    1,value
        .loop   count
        .word   value
        .eval   value*2,value
        .endloop
        .endm
        POWERS  3
        POWERS  2
