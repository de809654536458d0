COUNTED .set 1
 .word Counter
