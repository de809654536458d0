 .eval 1+2,C
 .word C
