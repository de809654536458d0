 B 0
