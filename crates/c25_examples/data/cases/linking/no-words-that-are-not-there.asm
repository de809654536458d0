 NOP
V .usect "fast",0
