M .macro A,B,C
 .word A
 .word B
 .word C
 .endm
L M 1 , "2,3", 4,5 ; comment
