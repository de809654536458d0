 .loop "A"
