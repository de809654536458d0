 .global L,R,N
 .ref M,T
 LRLK AR1,200h
 LARP 1
 RPTK N-1
 BLKP L,*+
 CNFP
 CALL R
 CALL T
S B S
 .sect "fast"
 .label L
R LACK 1
 SACL 60h
 OUT 60h,PA0
 RET
N .set 8
