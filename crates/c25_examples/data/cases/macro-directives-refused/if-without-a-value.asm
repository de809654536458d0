 .if
