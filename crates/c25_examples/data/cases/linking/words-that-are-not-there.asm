 NOP
V .usect "fast",4
