X NOP
X .set Q
