 B 0
 .sect "a"
 .word 1,2,3
 .sect "b"
 .word 4
 .sect "c"
 .word 5,6,7,8,9,10,11,12
