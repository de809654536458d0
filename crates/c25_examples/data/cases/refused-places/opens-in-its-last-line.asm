 NOP
X .loop 2
