 LRLK AR1,200h
 LARP 1
 RPTK 5
 BLKP L,*+
 B P
 .sect "plain"
P LACK 1
 SACL 60h
 OUT 60h,PA0
 CNFP
 .sect "fast"
 .label L
R LACK 2
 SACL 60h
 OUT 60h,PA0
 NOP
 OUT 60h,PA1
 CNFD
