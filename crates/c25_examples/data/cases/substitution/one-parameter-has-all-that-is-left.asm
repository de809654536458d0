P .macro x
 .word x
 .endm
L P 1, 2 ,3 ;
