MEMORY { PAGE 1 : D : o = 0, l = 16 }
