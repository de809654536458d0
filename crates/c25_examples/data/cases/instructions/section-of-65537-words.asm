 .loop 65537
 LACK 1
 .endloop
