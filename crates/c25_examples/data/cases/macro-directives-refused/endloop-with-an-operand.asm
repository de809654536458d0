 .endloop 1
