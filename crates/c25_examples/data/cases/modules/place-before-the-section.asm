X .set $-1
 .word X
