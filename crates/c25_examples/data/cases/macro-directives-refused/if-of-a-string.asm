 .if "A"
