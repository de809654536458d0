 LRLK AR1,200h
 LARP 1
 RPTK 4
 BLKP L,*+
 CNFP
 B R
 .sect "fast"
 .label L
R LACK 9
 SACL 60h
 OUT 60h,PA0
S B S
