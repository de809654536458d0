X .usect "v",1
 LAC X,4
 LDPK X
