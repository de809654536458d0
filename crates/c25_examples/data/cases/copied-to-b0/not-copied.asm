 CNFP
 B R
 .sect "fast"
R LACK 9
 SACL 60h
 OUT 60h,PA0
S B S
