 .END 1
