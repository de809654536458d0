 NOP
X .usect "v",65535
