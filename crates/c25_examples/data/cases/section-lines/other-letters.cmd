MEMORY { PAGE 1 : D : o = 300h, l = 16 }
SECTIONS { .TEXT : > 0 }
