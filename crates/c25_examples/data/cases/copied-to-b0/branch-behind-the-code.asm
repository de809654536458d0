 LRLK AR1,200h
 LARP 1
 RPTK 5
 BLKP L,*+
 CNFP
 B S+2
 .sect "fast"
 .label L
R LACK 9
 SACL 60h
 OUT 60h,PA0
S B S
