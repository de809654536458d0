 .if 1+
