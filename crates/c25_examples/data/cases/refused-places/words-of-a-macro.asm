ROOM .macro n
X .usect "delays",n
 .endm
 ROOM 65537
