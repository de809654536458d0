 .global M,T
 .ref L
 .sect "fast"
 .label M
T LACK 2
 SACL 60h
 OUT 60h,PA0
 RET
 .data
 .word T,M,M+1,L
