 .global X
X NOP
X NOP
