 CNFP
 B X
 .sect "hi"
X B X
