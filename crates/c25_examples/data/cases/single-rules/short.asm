ZY .set 1
 .word QX
