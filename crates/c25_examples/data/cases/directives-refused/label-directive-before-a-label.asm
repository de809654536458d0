 .label X
X NOP
