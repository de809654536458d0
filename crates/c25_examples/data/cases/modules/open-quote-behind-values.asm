 .word 1
 .int '''',"
