 .word 7/-2,-7>>1,1+2<<3,0FFh&~0Fh,70000
 .string "ABC","a"""
 .byte -1,255
 .int ''''
