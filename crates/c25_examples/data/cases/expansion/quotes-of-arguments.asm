P .macro x,y
 .word x
 .word y
 .endm
 P 1, 2 ,3
 P "1,2","3"
 P ',',4
