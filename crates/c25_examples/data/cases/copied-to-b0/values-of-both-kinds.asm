 .sect "fast"
 NOP
 .label L
R LALK $
 LALK L
X .label M
 .word X,M
 .text
A .set L+1
B .set R+1
C .equ M-L
D .equ X-R
 .word L,R,A,B,C,D,L-1,1+L,M-A,$
 LAC L+2
 LAC R+2
 LDPK L
 LDPK R
 LALK L
 LALK R
 LRLK AR1,M-100h
