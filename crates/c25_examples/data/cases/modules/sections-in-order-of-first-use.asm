 .data
A .word 1
 .sect a+b
 .word 2
 .bss U,3
V .usect .bss,2
 .text
 .word 3
 .sect "a+b"
B .space 17
