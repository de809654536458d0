A .set 1
 .word A,*5
